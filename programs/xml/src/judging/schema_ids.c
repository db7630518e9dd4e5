#include "schema_ids.h"

#include <stdlib.h>

int32_t schema_form(rncv_schema *schema, uint8_t **form, size_t *length) {
    size_t size = 0;
    int32_t status = rncv_simple(schema, NULL, 0, &size);
    *form = status == RNCV_SPACE ? malloc(size) : NULL;
    if (status == RNCV_SPACE) {
        status = *form == NULL ? RNCV_MEMORY : rncv_simple(schema, *form, size, length);
    }
    return status;
}

bool schema_ids_read(rncv_schema *schema, const struct schema_files *files, struct id_types **types, struct bytes *unsound) {
    uint8_t *form;
    size_t length = 0;
    *types = NULL;
    if (files->marked == 0 && !files->names_ids) {
        return true;
    }
    *types = schema_form(schema, &form, &length) != RNCV_DONE ? NULL : calloc(1, sizeof **types);
    bool is_good = *types != NULL && id_types_open(*types, (struct span){(const char *)form, length}, files->marked > 0, unsound);
    free(form);
    if (*types != NULL && (!is_good || unsound->length > 0 || (*types)->pairs.count == 0)) {
        schema_ids_free(*types);
        *types = NULL;
    }
    return is_good;
}

void schema_ids_free(struct id_types *types) {
    if (types != NULL) {
        id_types_close(types);
        free(types);
    }
}
