/* Reading a signature record by OpenSSL's templates: all items decoded, each in memory of its own, and freed. The names are those of the standard. */
#include "operations.h"
#include <openssl/asn1t.h>

typedef struct {
    ASN1_IA5STRING *ID;
    ASN1_INTEGER *version;
    ASN1_IA5STRING *Vid;
} SES_Header;

ASN1_SEQUENCE(SES_Header) = {
    ASN1_SIMPLE(SES_Header, ID, ASN1_IA5STRING),
    ASN1_SIMPLE(SES_Header, version, ASN1_INTEGER),
    ASN1_SIMPLE(SES_Header, Vid, ASN1_IA5STRING),
} static_ASN1_SEQUENCE_END(SES_Header)

typedef struct {
    ASN1_PRINTABLESTRING *type;
    ASN1_OCTET_STRING *value;
} CertDigestObj;

ASN1_SEQUENCE(CertDigestObj) = {
    ASN1_SIMPLE(CertDigestObj, type, ASN1_PRINTABLESTRING),
    ASN1_SIMPLE(CertDigestObj, value, ASN1_OCTET_STRING),
} static_ASN1_SEQUENCE_END(CertDigestObj)

/* An entry of the certificate list; the templates tell its kind by its tag. */
typedef struct {
    int type;
    union {
        ASN1_OCTET_STRING *certificate;
        CertDigestObj *digest;
    } value;
} Listed;

ASN1_CHOICE(Listed) = {
    ASN1_SIMPLE(Listed, value.certificate, ASN1_OCTET_STRING),
    ASN1_SIMPLE(Listed, value.digest, CertDigestObj),
} static_ASN1_CHOICE_END(Listed)

typedef struct {
    ASN1_INTEGER *type;
    ASN1_UTF8STRING *name;
    ASN1_INTEGER *certListType;
    STACK_OF(Listed) *certList;
    ASN1_GENERALIZEDTIME *createDate;
    ASN1_GENERALIZEDTIME *validStart;
    ASN1_GENERALIZEDTIME *validEnd;
} SES_ESPropertyInfo;

ASN1_SEQUENCE(SES_ESPropertyInfo) = {
    ASN1_SIMPLE(SES_ESPropertyInfo, type, ASN1_INTEGER),
    ASN1_SIMPLE(SES_ESPropertyInfo, name, ASN1_UTF8STRING),
    ASN1_SIMPLE(SES_ESPropertyInfo, certListType, ASN1_INTEGER),
    ASN1_SEQUENCE_OF(SES_ESPropertyInfo, certList, Listed),
    ASN1_SIMPLE(SES_ESPropertyInfo, createDate, ASN1_GENERALIZEDTIME),
    ASN1_SIMPLE(SES_ESPropertyInfo, validStart, ASN1_GENERALIZEDTIME),
    ASN1_SIMPLE(SES_ESPropertyInfo, validEnd, ASN1_GENERALIZEDTIME),
} static_ASN1_SEQUENCE_END(SES_ESPropertyInfo)

typedef struct {
    ASN1_IA5STRING *type;
    ASN1_OCTET_STRING *data;
    ASN1_INTEGER *width;
    ASN1_INTEGER *height;
} SES_ESPictrueInfo;

ASN1_SEQUENCE(SES_ESPictrueInfo) = {
    ASN1_SIMPLE(SES_ESPictrueInfo, type, ASN1_IA5STRING),
    ASN1_SIMPLE(SES_ESPictrueInfo, data, ASN1_OCTET_STRING),
    ASN1_SIMPLE(SES_ESPictrueInfo, width, ASN1_INTEGER),
    ASN1_SIMPLE(SES_ESPictrueInfo, height, ASN1_INTEGER),
} static_ASN1_SEQUENCE_END(SES_ESPictrueInfo)

typedef struct {
    ASN1_OBJECT *extnID;
    ASN1_BOOLEAN critical;
    ASN1_OCTET_STRING *extnValue;
} ExtData;

ASN1_SEQUENCE(ExtData) = {
    ASN1_SIMPLE(ExtData, extnID, ASN1_OBJECT),
    ASN1_OPT(ExtData, critical, ASN1_FBOOLEAN),
    ASN1_SIMPLE(ExtData, extnValue, ASN1_OCTET_STRING),
} static_ASN1_SEQUENCE_END(ExtData)

typedef struct {
    SES_Header *header;
    ASN1_IA5STRING *esID;
    SES_ESPropertyInfo *property;
    SES_ESPictrueInfo *picture;
    STACK_OF(ExtData) *extDatas;
} SES_SealInfo;

ASN1_SEQUENCE(SES_SealInfo) = {
    ASN1_SIMPLE(SES_SealInfo, header, SES_Header),
    ASN1_SIMPLE(SES_SealInfo, esID, ASN1_IA5STRING),
    ASN1_SIMPLE(SES_SealInfo, property, SES_ESPropertyInfo),
    ASN1_SIMPLE(SES_SealInfo, picture, SES_ESPictrueInfo),
    ASN1_SEQUENCE_OF_OPT(SES_SealInfo, extDatas, ExtData),
} static_ASN1_SEQUENCE_END(SES_SealInfo)

typedef struct {
    SES_SealInfo *eSealInfo;
    ASN1_OCTET_STRING *cert;
    ASN1_OBJECT *signAlgID;
    ASN1_BIT_STRING *signedValue;
} SESeal;

ASN1_SEQUENCE(SESeal) = {
    ASN1_SIMPLE(SESeal, eSealInfo, SES_SealInfo),
    ASN1_SIMPLE(SESeal, cert, ASN1_OCTET_STRING),
    ASN1_SIMPLE(SESeal, signAlgID, ASN1_OBJECT),
    ASN1_SIMPLE(SESeal, signedValue, ASN1_BIT_STRING),
} static_ASN1_SEQUENCE_END(SESeal)

typedef struct {
    ASN1_INTEGER *version;
    SESeal *eseal;
    ASN1_GENERALIZEDTIME *timeInfo;
    ASN1_BIT_STRING *dataHash;
    ASN1_IA5STRING *propertyInfo;
    STACK_OF(ExtData) *extDatas;
} TBS_Sign;

ASN1_SEQUENCE(TBS_Sign) = {
    ASN1_SIMPLE(TBS_Sign, version, ASN1_INTEGER),
    ASN1_SIMPLE(TBS_Sign, eseal, SESeal),
    ASN1_SIMPLE(TBS_Sign, timeInfo, ASN1_GENERALIZEDTIME),
    ASN1_SIMPLE(TBS_Sign, dataHash, ASN1_BIT_STRING),
    ASN1_SIMPLE(TBS_Sign, propertyInfo, ASN1_IA5STRING),
    ASN1_EXP_SEQUENCE_OF_OPT(TBS_Sign, extDatas, ExtData, 0),
} static_ASN1_SEQUENCE_END(TBS_Sign)

typedef struct {
    TBS_Sign *toSign;
    ASN1_OCTET_STRING *cert;
    ASN1_OBJECT *signatureAlgID;
    ASN1_BIT_STRING *signature;
    ASN1_BIT_STRING *timeStamp;
} SES_Signature;

ASN1_SEQUENCE(SES_Signature) = {
    ASN1_SIMPLE(SES_Signature, toSign, TBS_Sign),
    ASN1_SIMPLE(SES_Signature, cert, ASN1_OCTET_STRING),
    ASN1_SIMPLE(SES_Signature, signatureAlgID, ASN1_OBJECT),
    ASN1_SIMPLE(SES_Signature, signature, ASN1_BIT_STRING),
    ASN1_EXP_OPT(SES_Signature, timeStamp, ASN1_BIT_STRING, 0),
} static_ASN1_SEQUENCE_END(SES_Signature)

/* One reading. */
static uint64_t check(void) {
    const unsigned char *at = record;
    ASN1_VALUE *read = ASN1_item_d2i(NULL, &at, (long)length, ASN1_ITEM_rptr(SES_Signature));
    if (read == NULL) return 1;
    ASN1_item_free(read, ASN1_ITEM_rptr(SES_Signature));
    return at == record + length ? (uint64_t)length << 8 : 1;
}

const operation operations[] = {
    {"check", NULL, check},
    {NULL, NULL, NULL},
};
