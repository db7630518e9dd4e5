# Finds the parser of XML, libxml2. It is read by build.sh and library.sh, and sets parser_flags and parser_libs, unless the variables XML2_CFLAGS and XML2_LIBS
# say where it is, parser_parts: the sources that read XML, and convert it to PYX, and headers: where their headers are, from the folder `src` on. The files in
# the folders of `src` have different names. Those that include a header of libxml2 are in `reading`.
if [ -n "${XML2_LIBS:-}" ]; then
    parser_flags=${XML2_CFLAGS:-}
    parser_libs=$XML2_LIBS
elif pkg-config --exists libxml-2.0 2> /dev/null; then
    parser_flags=$(pkg-config --cflags libxml-2.0)
    parser_libs=$(pkg-config --libs libxml-2.0)
elif command -v xml2-config > /dev/null; then
    parser_flags=$(xml2-config --cflags)
    parser_libs=$(xml2-config --libs)
else
    parser_flags=-I/usr/include/libxml2
    parser_libs=-lxml2
fi
headers="-Ireading -Ijudging -Ischemas -Ixml_schemas -Iprogram -Iconverter -Ilibrary"
parser_parts="bytes secret fault encodings xml_declaration declaration_blanks decoding markup_scan long_references models xml_names runs choices long_names left_out shortening wide_tags sections inclusions including feed entity_text entity_names entity_heights entity_balance nested_parameters declarations attribute_defaults entity_references parser_memory parser_words external shown tag_names known_names long_uris wide_names events conversion"

# Whether it is there, and one of those whose tables are as the sources take them (2.9.10 to 2.11), as a program of a few lines finds in a folder.
has_parser() {
    cat > "$1/parser.c" << 'EOF'
#include <libxml/parser.h>
#if LIBXML_VERSION < 20910 || LIBXML_VERSION >= 21200
#error "too old, or too new"
#endif
int main(void) { xmlInitParser(); return 0; }
EOF
    # shellcheck disable=SC2086  # these are words
    $cc $parser_flags -o "$1/parser" "$1/parser.c" $parser_libs 2> "$1/parser.log"
}
