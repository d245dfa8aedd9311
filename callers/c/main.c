/* Prints what the check says of the sheet in a file: verdict, order, and every record, as the program `report` does but without its limit. */
#include "tirvouez.h"

#include <stdio.h>

#define PAGE 512 /* records of one call */

static uint8_t sheet[32769]; /* one byte more than a sheet can have */
static uint8_t scratch[TIRVOUEZ_SCRATCH];
static uint8_t out[TIRVOUEZ_ROOM(PAGE)];

static void print_records(void) {
    size_t k;
    for (k = 0; k < tirvouez_count(out); ++k) {
        const struct tirvouez_record r = tirvouez_record_at(out, k);
        printf("%u %c %u", r.message, r.letter, r.first);
        if (tirvouez_has_second(r.letter)) printf(" %u", r.second);
        printf(" %u\n", r.detail);
    }
}

static void print_answer(void) {
    unsigned k;
    printf("accepted %lu\norder", (unsigned long)tirvouez_total(out));
    for (k = 0; k < tirvouez_structs(out); ++k) printf(" %u", tirvouez_order(out, (uint8_t)k));
    printf("\ntiers");
    for (k = 0; k < tirvouez_structs(out); ++k) printf(" %u", tirvouez_tier(out, tirvouez_order(out, (uint8_t)k)));
    printf("\nimproper");
    for (k = 0; k < TIRVOUEZ_NAMES; ++k)
        if (tirvouez_has(out, TIRVOUEZ_SET_IMPROPER, (uint8_t)k)) printf(" %u", k);
    printf("\n");
}

/* Every page of the report; 0, or 1 where the library writes another layout. */
static int print_sheet(size_t length) {
    size_t from = 0;
    do {
        const size_t written = tirvouez_check(sheet, length, scratch, sizeof scratch, from, out, sizeof out);
        if (!tirvouez_known(out, written)) {
            fprintf(stderr, "the library writes another layout than version %d\n", TIRVOUEZ_VERSION);
            return 1;
        }
        if (tirvouez_refusal(out) != 0) {
            printf("refused %u at %lu\n", tirvouez_refusal(out), (unsigned long)tirvouez_position(out));
            return 0;
        }
        if (from == 0) print_answer();
        print_records();
        from += tirvouez_count(out);
    } while (from < tirvouez_total(out));
    return 0;
}

int main(int argc, char **argv) {
    FILE *file;
    size_t length;
    if (argc != 2) {
        fprintf(stderr, "usage: %s SHEET\n", argv[0]);
        return 2;
    }
    file = fopen(argv[1], "rb");
    if (file == NULL) {
        fprintf(stderr, "cannot read %s\n", argv[1]);
        return 2;
    }
    length = fread(sheet, 1, sizeof sheet, file);
    fclose(file);
    return print_sheet(length);
}
