/*
 * The page view for C, for a viewer that is linked with the plain replay (tests/plain) in place of the proved library.
 */
#include "hazelcrook.h"

size_t hazelcrook_page_length(size_t flash_len, size_t eeprom_len, uint32_t chip, size_t number)
{
    if (flash_len != HAZELCROOK_IMAGE || eeprom_len != HAZELCROOK_IMAGE)
        return 0;
    if (chip == 0)
        return number < HAZELCROOK_FLASH_PAGES ? HAZELCROOK_IMAGE / HAZELCROOK_FLASH_PAGES : 0;
    return number < HAZELCROOK_EEPROM_PAGES ? HAZELCROOK_IMAGE / HAZELCROOK_EEPROM_PAGES : 0;
}

size_t hazelcrook_page_place(size_t flash_len, size_t eeprom_len, uint32_t chip, size_t number)
{
    return number * hazelcrook_page_length(flash_len, eeprom_len, chip, number);
}
