/* Reading a signature record by libtasn1: the tree of the layout made, all items decoded into it by its strict DER, and the tree freed. The layout is in
 * tasn1.asn, which stands in the folder that the program is run in. */
#include "operations.h"
#include <libtasn1.h>

static asn1_node definitions;

/* Reads the layout, once. */
static void prepare(void) {
    char why[ASN1_MAX_ERROR_DESCRIPTION_SIZE];
    if (definitions == NULL && asn1_parser2tree("tasn1.asn", &definitions, why) != ASN1_SUCCESS) stop(why);
}

/* One reading. */
static uint64_t check(void) {
    asn1_node tree = NULL;
    int bytes = (int)length;
    if (asn1_create_element(definitions, "Seals.SESSignature", &tree) != ASN1_SUCCESS) return 1;
    int result = asn1_der_decoding2(&tree, record, &bytes, ASN1_DECODE_FLAG_STRICT_DER, NULL);
    asn1_delete_structure(&tree);
    return result == ASN1_SUCCESS ? (uint64_t)length << 8 : 1;
}

const operation operations[] = {
    {"check", prepare, check},
    {NULL, NULL, NULL},
};
