// The header serves C++: each struct and enum by its plain name, which no function has, and each function.
#include "onerom.h"

template <typename... Functions> static bool all(Functions... functions) {
    bool there[] = {functions != nullptr...};
    for (bool one : there)
        if (!one) return false;
    return true;
}

int main() {
    onerom_header header = onerom_header();
    onerom_text text = onerom_text();
    onerom_extra_info extra_info = onerom_extra_info();
    onerom_metadata metadata = onerom_metadata();
    onerom_sets sets = onerom_sets();
    onerom_pins pins = onerom_pins();
    onerom_report report = {header, text, text, extra_info, metadata, sets, pins};
    onerom_number number = ONEROM_REFUSED_ENDED;
    onerom_runtime_word runtime_word = ONEROM_RUNTIME_IMAGE;
    onerom_part_word part_word = ONEROM_PART_OFFSET;
    onerom_level level = ONEROM_LEVEL_CS1;
    onerom_control control = ONEROM_CONTROL_CS1;
    onerom_line line = ONEROM_LINE_F401DE;
    onerom_storage storage = ONEROM_STORAGE_8;
    onerom_port port = ONEROM_PORT_NONE;
    onerom_pio pio = ONEROM_PIO_OFF;
    onerom_item item = ONEROM_ITEM_BUILD_DATE;
    onerom_set_word set_word = ONEROM_SET_DATA_POINTER;
    onerom_rom_word rom_word = ONEROM_ROM_TYPE;
    onerom_serve serve = ONEROM_SERVE_TWO_CS_ONE_ADDR;
    onerom_state state = ONEROM_STATE_ACTIVE_LOW;
    onerom_type type = ONEROM_TYPE_ROM2316;
    unsigned words = 0u | runtime_word | part_word | set_word | rom_word;
    unsigned zeros = words | level | control | line | storage | port | pio | item | serve | state | type;
    onerom_opening opening = onerom_open(nullptr, 0, ONEROM_FLASH_BASE, ONEROM_CS0_BASE, ONEROM_INFO_OFFSET, nullptr, 0, nullptr, 0);
    bool called = opening.number == number && onerom_reason(opening.number)[0] == 'n' && onerom_item_number(&report, item) == 0;
    return zeros == 0 && called &&
                   all(onerom_runtime, onerom_string, onerom_mangle, onerom_demangle, onerom_open, onerom_get_rom_set_size, onerom_same_set,
                       onerom_read_rom_set_data, onerom_read_rom_byte_raw, onerom_read_rom_byte_demangled, onerom_read_rom_byte_own)
               ? 0
               : 1;
}
