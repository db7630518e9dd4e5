#include "options.h"

#include <stdlib.h>
#include <string.h>

/* The options. */
enum name {
    NAME_JOBS,
    NAME_RECURSIVE,
    NAME_GLOB,
    NAME_FILES_FROM,
    NAME_NULL,
    NAME_STDIN_NAME,
    NAME_MAP,
    NAME_CATALOG,
    NAME_DATATYPES,
    NAME_ALL,
    NAME_VERBOSE,
    NAME_QUIET,
    NAME_DTD,
    NAME_MAX_FAULTS,
    NAME_MAX_DEPTH,
    NAME_MAX_MEMORY,
    NAME_MAX_ATTRIBUTES,
    NAME_NO_IDS,
    NAME_STRICT,
    NAME_STRICT_PROFILE,
    NAME_PRINT_SCHEMA,
    NAME_MOST_FILES,
    NAME_FORMAT,
    NAME_COLOR,
    NAME_SOURCE,
    NAME_NO_SOURCE,
    NAME_HELP,
    NAME_VERSION
};

struct option {
    const char *word;
    char letter; /* 0: there is none */
    bool has_value;
    enum name name;
};

static const struct option known[] = {
    {"--jobs", 'j', true, NAME_JOBS},
    {"--recursive", 'r', false, NAME_RECURSIVE},
    {"--glob", 0, true, NAME_GLOB},
    {"--files-from", 0, true, NAME_FILES_FROM},
    {"--null", '0', false, NAME_NULL},
    {"--stdin-name", 0, true, NAME_STDIN_NAME},
    {"--map", 0, true, NAME_MAP},
    {"--catalog", 0, true, NAME_CATALOG},
    {"--datatypes", 0, true, NAME_DATATYPES},
    {"--all", 0, false, NAME_ALL},
    {"--verbose", 'v', false, NAME_VERBOSE},
    {"--quiet", 'q', false, NAME_QUIET},
    {"--dtd", 0, false, NAME_DTD},
    {"--max-faults", 0, true, NAME_MAX_FAULTS},
    {"--max-depth", 0, true, NAME_MAX_DEPTH},
    {"--max-memory", 0, true, NAME_MAX_MEMORY},
    {"--max-attributes", 0, true, NAME_MAX_ATTRIBUTES},
    {"--no-ids", 0, false, NAME_NO_IDS},
    {"--strict", 0, false, NAME_STRICT},
    {"--strict-profile", 0, false, NAME_STRICT_PROFILE},
    {"--print-schema", 0, false, NAME_PRINT_SCHEMA},
    {"--most-files", 0, true, NAME_MOST_FILES}, /* for tests, and so in no help */
    {"--format", 0, true, NAME_FORMAT},
    {"--color", 0, true, NAME_COLOR},
    {"--source", 0, false, NAME_SOURCE},
    {"--no-source", 0, false, NAME_NO_SOURCE},
    {"--help", 'h', false, NAME_HELP},
    {"--version", 0, false, NAME_VERSION},
};

const char *options_help(void) {
    return "usage: rncv-xml [OPTIONS] SCHEMA [DOCUMENT.xml | FOLDER | -]..\n"
           "       rncv-xml [OPTIONS] SCHEMA.. -- DOCUMENT.xml..\n"
           "\n"
           "Judges XML documents by a RELAX NG schema, in the compact syntax or in the XML syntax (.rnc, .rng). Files that the schema\n"
           "includes are found beside the file that mentions them. Without a document the schema alone is judged. `-` is standard input.\n"
           "\n"
           "Documents:\n"
           "  -r, --recursive      judge the documents in folders\n"
           "      --glob PATTERN   the names to take in folders; can be repeated (else *.xml)\n"
           "      --files-from FILE  names of documents, a line each, or ended by a zero byte each; `-` is standard input\n"
           "  -0, --null           a zero byte ends each of these names, also if a line feed comes before the first one\n"
           "      --stdin-name NAME  how standard input is called in what is printed\n"
           "  -j, --jobs N         judge N documents at once, from 1 to 64 (else the number of processors)\n"
           "      --dtd            read the external DTD and external entities of a document, from files\n"
           "      --max-depth N    the most elements that may be open; also entities, or brackets of a declaration, in one another (else 10,000)\n"
           "      --max-memory SIZE  the most memory that a document may take, in bytes, or with K, M or G (else 512M)\n"
           "      --max-attributes N  the most attributes and declarations of a tag (else 10,000); above that also the most of them by\n"
           "                       default (else 1,000); time grows with the square of these, and of namespaces\n"
           "      --no-ids         do not check that each ID is there once, and that what refers to one finds it\n"
           "      --strict         a document with a note, such as an external DTD that is not read, is outside the profile;\n"
           "                       a schema in the XML syntax with a note is refused\n"
           "Schema:\n"
           "      --map HREF=FILE  the file that HREF means in an include or external; can be repeated\n"
           "      --catalog FILE   an XML catalog for URIs in an include or external; can be repeated. XML_CATALOG_FILES names others\n"
           "      --datatypes SET  the datatypes that the schema may name: xml-schema, or the six of the profile (else xml-schema)\n"
           "      --print-schema   print what the proved library gets, in the compact syntax, and judge no document\n"
           "      --strict-profile  a schema that rncv-profile loosened or tightened is refused (status 3)\n"
           "Output:\n"
           "      --all            a line for each document, `FILE: valid` too\n"
           "  -v, --verbose        the same, with the files of the schema and a closing line\n"
           "  -q, --quiet          print nothing but failures; the exit status says the rest\n"
           "      --max-faults N   tell N faults of an invalid document at most: the first, and hints about others (else 20)\n"
           "      --format FORMAT  text, json (an object a line, for each document), sarif or github\n"
           "      --color WHEN     auto, always or never; NO_COLOR is respected\n"
           "      --source         show the line of each fault, with a mark below (else on a terminal)\n"
           "      --no-source      never show it\n"
           "  -h, --help           this text\n"
           "      --version        the version\n"
           "\n"
           "A line is `FILE:LINE:COLUMN: invalid: ..`, with what is wrong and what was expected; a valid document has no line. Lines with\n"
           "`hint:` behind it tell further faults, if the document is a file.\n"
           "Exit status, the greatest of: 0 all valid; 1 some invalid; 2 some malformed or outside the profile; 3 the schema is refused;\n"
           "4 a file or a device failed; 5 wrong words. 130 after Ctrl-C, 141 if the output is a closed pipe.\n"
           "`man rncv-xml` has more. `man rncv` is about the proved program.\n";
}

static bool out_of_memory(struct options *options) {
    options->failed = true;
    return false;
}

/* Adds a word to a list. */
static bool add_word(struct options *options, const char ***list, size_t *count, const char *word) {
    const char **longer = realloc(*list, (*count + 1) * sizeof *longer);
    if (longer == NULL) {
        return out_of_memory(options);
    }
    longer[(*count)++] = word;
    *list = longer;
    return true;
}

static bool is_wrong(struct options *options, const char *what, const char *word) {
    bytes_clear(&options->wrong);
    bytes_format(&options->wrong, what, word);
    return options->wrong.failed ? out_of_memory(options) : false;
}

/* The index of the word in a list that ends in NULL; -1 if it is not there. */
static int place_in(const char *const *list, const char *word) {
    for (int at = 0; list[at] != NULL; at++) {
        if (strcmp(list[at], word) == 0) {
            return at;
        }
    }
    return -1;
}

/* Reads a size: a number that is not 0, with K, M or G behind it if `has_unit`. */
static bool take_size(struct options *options, const char *value, bool has_unit, size_t *size) {
    static const char units[] = "KMG";
    char *end;
    unsigned long long number = value[0] < '0' || value[0] > '9' ? 0 : strtoull(value, &end, 10);
    const char *unit = number > 0 && has_unit && *end != '\0' ? strchr(units, *end) : NULL;
    unsigned shift = unit == NULL ? 0 : 10 * (unsigned)(unit - units + 1);
    if (number == 0 || end[unit != NULL] != '\0') {
        return is_wrong(options, has_unit ? "--max-memory wants a size as 64M, and not '%s'" : "--max-depth wants a number, and not '%s'", value);
    }
    *size = number > (unsigned long long)(SIZE_MAX / 4) >> shift ? SIZE_MAX / 4 : (size_t)number << shift;
    return true;
}

/* Reads a number from 1 to this one. `wanted` says what is wrong with another word. */
static bool take_number(struct options *options, const char *value, size_t most, const char *wanted, size_t *taken) {
    char *end;
    unsigned long number = value[0] < '0' || value[0] > '9' ? 0 : strtoul(value, &end, 10);
    if (number == 0 || number > most || *end != '\0') {
        return is_wrong(options, wanted, value);
    }
    *taken = (size_t)number;
    return true;
}

static bool take_mapping(struct options *options, const char *value) {
    const char *equal = strrchr(value, '=');
    struct mapping *longer;
    if (equal == NULL || equal == value || equal[1] == '\0') {
        return is_wrong(options, "--map wants HREF=FILE, and not '%s'", value);
    }
    longer = realloc(options->mappings, (options->mapping_count + 1) * sizeof *longer);
    if (longer == NULL) {
        return out_of_memory(options);
    }
    longer[options->mapping_count++] = (struct mapping){value, (size_t)(equal - value), equal + 1};
    options->mappings = longer;
    return true;
}

static bool take_datatypes(struct options *options, const char *value) {
    static const char *const sets[] = {"profile", "xml-schema", NULL};
    int set = place_in(sets, value);
    if (set < 0) {
        return is_wrong(options, "--datatypes is xml-schema or profile, and not '%s'", value);
    }
    options->datatypes = set == 0 ? RNCV_DATATYPES_PROFILE : RNCV_DATATYPES_XML_SCHEMA;
    return true;
}

static bool take_format(struct options *options, const char *value) {
    static const char *const formats[] = {"text", "json", "sarif", "github", NULL};
    int format = place_in(formats, value);
    if (format < 0) {
        return is_wrong(options, "--format is text, json, sarif or github, and not '%s'", value);
    }
    options->format = (enum format)format;
    return true;
}

static bool take_color(struct options *options, const char *value) {
    static const char *const whens[] = {"auto", "always", "never", NULL};
    int when = place_in(whens, value);
    if (when < 0) {
        return is_wrong(options, "--color is auto, always or never, and not '%s'", value);
    }
    options->color = (enum when)when;
    return true;
}

/* Takes the list of documents. There is one, so that none of another is left out unnoticed. */
static bool take_list(struct options *options, const char *value) {
    if (options->files_from != NULL) {
        return is_wrong(options, "--files-from names one list, and '%s' is a second one", value);
    }
    options->files_from = value;
    return true;
}

static bool take_value(struct options *options, enum name name, const char *value) {
    switch (name) {
    case NAME_JOBS:
        return take_number(options, value, MOST_JOBS, "--jobs wants a number from 1 to 64, and not '%s'", &options->jobs);
    case NAME_GLOB:
        return add_word(options, &options->globs, &options->glob_count, value);
    case NAME_FILES_FROM:
        return take_list(options, value);
    case NAME_STDIN_NAME:
        options->input_name = value;
        return true;
    case NAME_MAP:
        return take_mapping(options, value);
    case NAME_CATALOG:
        return add_word(options, &options->catalogs, &options->catalog_count, value);
    case NAME_DATATYPES:
        return take_datatypes(options, value);
    case NAME_MOST_FILES:
        options->most_files = (size_t)strtoul(value, NULL, 10);
        return true;
    case NAME_MAX_FAULTS:
        return take_number(options, value, MOST_FAULTS, "--max-faults wants a number from 1 to 1000, and not '%s'", &options->most_faults);
    case NAME_MAX_DEPTH:
        return take_size(options, value, false, &options->depth);
    case NAME_MAX_MEMORY:
        return take_size(options, value, true, &options->memory);
    case NAME_MAX_ATTRIBUTES:
        return take_number(options, value, MOST_ALLOWED, "--max-attributes wants a number from 1 to 1000000000, and not '%s'", &options->attributes);
    case NAME_FORMAT:
        return take_format(options, value);
    case NAME_COLOR:
        return take_color(options, value);
    default:
        return is_wrong(options, "the option '%s' is not known", value);
    }
}

static void take_flag(struct options *options, enum name name) {
    options->is_recursive |= name == NAME_RECURSIVE;
    options->has_zeros |= name == NAME_NULL;
    options->reports_all |= name == NAME_ALL || name == NAME_VERBOSE;
    options->is_verbose |= name == NAME_VERBOSE;
    options->is_quiet |= name == NAME_QUIET;
    options->is_strict |= name == NAME_STRICT_PROFILE;
    options->prints_schema |= name == NAME_PRINT_SCHEMA;
    options->refuses_notes |= name == NAME_STRICT;
    options->loads_dtd |= name == NAME_DTD;
    options->skips_ids |= name == NAME_NO_IDS;
    options->source = name == NAME_SOURCE ? WHEN_ALWAYS : name == NAME_NO_SOURCE ? WHEN_NEVER : options->source;
    options->wants_help |= name == NAME_HELP;
    options->wants_version |= name == NAME_VERSION;
}

/* The option that the word is, and its value if that is in the word. */
static const struct option *option_of(const char *word, const char **value) {
    *value = NULL;
    for (size_t at = 0; at < sizeof known / sizeof *known; at++) {
        const struct option *option = &known[at];
        size_t length = strlen(option->word);
        if (strncmp(word, option->word, length) == 0 && (word[length] == '\0' || (word[length] == '=' && option->has_value))) {
            *value = word[length] == '=' ? word + length + 1 : NULL;
            return option;
        }
        if (option->letter != 0 && word[1] == option->letter && (word[2] == '\0' || option->has_value)) {
            *value = word[2] == '\0' ? NULL : word + 2 + (word[2] == '=');
            return option;
        }
    }
    return NULL;
}

/* Takes the option at this place, and moves `at` to the last word that belongs to it. */
static bool take_option(struct options *options, char **words, int count, int *at) {
    const char *value;
    const char *word = words[*at];
    const struct option *option = option_of(word, &value);
    if (option == NULL) {
        return is_wrong(options, "the option '%s' is not known", word);
    }
    if (!option->has_value) {
        take_flag(options, option->name);
        return true;
    }
    if (value == NULL && *at + 1 == count) {
        return is_wrong(options, "the option '%s' wants a value", word);
    }
    return take_value(options, option->name, value == NULL ? words[++*at] : value);
}

/* The words that are neither options nor values: those before a `--`, and those after it. */
struct sides {
    const char **list[2];
    size_t count[2];
    bool are_parted;
};

static bool read_sides(struct options *options, int count, char **words, struct sides *sides) {
    for (int at = 1; at < count; at++) {
        const char *word = words[at];
        if (!sides->are_parted && strcmp(word, "--") == 0) {
            sides->are_parted = true;
        } else if (!sides->are_parted && word[0] == '-' && word[1] != '\0') {
            if (!take_option(options, words, count, &at)) {
                return false;
            }
        } else if (!add_word(options, &sides->list[sides->are_parted], &sides->count[sides->are_parted], word)) {
            return false;
        }
    }
    return true;
}

/* Divides the words into files of the schema and documents. All words before a `--` are files of the schema. If there is no `--`, or no word before it,
 * the first word is the schema. */
static bool part_words(struct options *options, struct sides *sides) {
    bool is_first = !sides->are_parted || sides->count[0] == 0;
    size_t side = sides->are_parted && sides->count[0] == 0;
    if (sides->count[side] == 0) {
        return is_wrong(options, "%s", "no schema is named");
    }
    options->schemas = sides->list[side]; /* the options own the list from here on */
    sides->list[side] = NULL;
    options->schema_count = is_first ? 1 : sides->count[side];
    if (is_first) {
        for (size_t at = 1; at < sides->count[side]; at++) {
            if (!add_word(options, &options->documents, &options->document_count, options->schemas[at])) {
                return false;
            }
        }
    } else {
        options->documents = sides->list[1];
        options->document_count = sides->count[1];
        sides->list[1] = NULL;
    }
    return true;
}

static bool has_word(const char *const *list, size_t count, const char *word) {
    for (size_t at = 0; at < count; at++) {
        if (strcmp(list[at], word) == 0) {
            return true;
        }
    }
    return false;
}

/* Whether the options go together. If not, `wrong` says why. */
static bool is_sound(struct options *options) {
    bool has_input = has_word(options->documents, options->document_count, "-");
    if (options->files_from != NULL && strcmp(options->files_from, "-") == 0 && has_input) {
        return is_wrong(options, "%s", "standard input cannot be both a document and the names of documents");
    }
    if (options->files_from == NULL && options->has_zeros) {
        return is_wrong(options, "%s", "--null goes together with --files-from");
    }
    if (has_word(options->schemas, options->schema_count, "-")) {
        return is_wrong(options, "%s", "the schema is a file, and not standard input");
    }
    if (options->is_quiet && options->reports_all) {
        return is_wrong(options, "%s", "--quiet does not go together with --all and --verbose");
    }
    if (options->prints_schema && (options->format == FORMAT_JSON || options->format == FORMAT_SARIF)) {
        return is_wrong(options, "%s", "--print-schema does not go together with --format json and sarif");
    }
    return true;
}

bool options_read(struct options *options, int count, char **words) {
    struct sides sides = {{NULL, NULL}, {0, 0}, false};
    memset(options, 0, sizeof *options);
    options->input_name = "-";
    options->datatypes = RNCV_DATATYPES_XML_SCHEMA;
    options->most_faults = USUAL_FAULTS;
    bool is_good = read_sides(options, count, words, &sides);
    is_good = is_good && (options->wants_help || options->wants_version || (part_words(options, &sides) && is_sound(options)));
    free(sides.list[0]);
    free(sides.list[1]);
    return is_good;
}

void options_free(struct options *options) {
    free(options->schemas);
    free(options->documents);
    free(options->globs);
    free(options->mappings);
    free(options->catalogs);
    bytes_free(&options->wrong);
}
