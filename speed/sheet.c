/* The settings sheet that both sides work on. */
#include "work.h"

static uint8_t *put_byte_field(uint8_t *at, uint8_t tag, unsigned value) {
    const uint8_t field[] = { tag, 0, 1, (uint8_t)value };
    for (size_t i = 0; i < sizeof field; i++) *at++ = field[i];
    return at;
}

static uint8_t *put_delays(uint8_t *at, unsigned first, unsigned second, unsigned ensure) {
    const uint8_t field[] = { 4, 0, 6, 0, (uint8_t)first, 0, (uint8_t)second, 0, (uint8_t)ensure };
    for (size_t i = 0; i < sizeof field; i++) *at++ = field[i];
    return at;
}

size_t write_sheet(uint8_t *sheet, unsigned networks, unsigned controllers) {
    uint8_t *at = sheet;
    for (unsigned i = 0; i < networks; i++) {
        at = put_byte_field(at, 1, controllers * i);
        for (unsigned k = 0; k < controllers; k++) at = put_byte_field(at, 2, controllers * i + k);
        at = put_byte_field(at, 3, i);
        at = put_delays(at, 2 + i, 5 + i, 3 + i);
        at = put_byte_field(at, 5, 1 + i % 3);
        at = put_byte_field(at, 6, i % 2);
    }
    return (size_t)(at - sheet);
}
