/* Each code has the name that the header gives it. codes.inc has a row for each of the header's, made by tools/c_tests.sh. */
#include "check.h"

struct row {
    sctpr_code code;
    const char *name;
};

static const struct row rows[] = {
#define ROW(code) { code, #code },
#include "codes.inc"
};

static void names(void) {
    char name[SCTPR_NAME_ROOM];
    for (size_t i = 0; i < sizeof rows / sizeof *rows; i++) {
        size_t written = 0;
        memset(name, 'x', sizeof name);
        CHECK(sctpr_code_name(rows[i].code, (uint8_t *)name, sizeof name, &written) == SCTPR_OK);
        CHECK(written == strlen(rows[i].name) + 1 && written <= SCTPR_NAME_ROOM);
        CHECK(strcmp(name, rows[i].name) == 0);
        CHECK(written == sizeof name || name[written] == 'x');
    }
}

static void unknown(void) {
    static const sctpr_code others[] = { 4, 15, 91, 100, 0x10000, UINT32_MAX };
    char name[SCTPR_NAME_ROOM];
    for (size_t i = 0; i < sizeof others / sizeof *others; i++) {
        size_t written = 0;
        CHECK(sctpr_code_name(others[i], (uint8_t *)name, sizeof name, &written) == SCTPR_OK);
        CHECK(strcmp(name, "SCTPR_UNKNOWN") == 0);
    }
}

static void short_buffer(void) {
    uint8_t name[9] = "abcdefgh";
    size_t written = 0;
    CHECK(sctpr_code_name(SCTPR_OK, name, 8, &written) == SCTPR_SHORT_BUFFER && written == 9);
    CHECK(memcmp(name, "abcdefgh", 9) == 0);
    CHECK(sctpr_code_name(SCTPR_OK, NULL, 0, &written) == SCTPR_SHORT_BUFFER && written == 9);
    CHECK(sctpr_code_name(SCTPR_OK, name, 9, &written) == SCTPR_OK && memcmp(name, "SCTPR_OK", 9) == 0);
}

int main(void) {
    uint32_t version = SCTPR_VERSION_MAJOR << 16 | SCTPR_VERSION_MINOR << 8 | SCTPR_VERSION_PATCH;
    CHECK(sctpr_version() == version);
    names();
    unknown();
    short_buffer();
    CHECK(sizeof rows / sizeof *rows == 78);
    return report("codes");
}
