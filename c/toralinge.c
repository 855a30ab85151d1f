/* The calls of toralinge.h that are text: a line for each number, and the library's version. All others are proved. */
#include "toralinge.h"

const char *toralinge_words(int64_t number)
{
    switch (number < 0 && number >= -TORALINGE_NOT_SO ? -number : number) {
    case TORALINGE_DONE: return "done";
    case TORALINGE_BAD_SETUP: return "a value of SETUP, or a gain code, is out of range";
    case TORALINGE_BAD_KIND: return "kind unknown, SETUP not first, first not SETUP, wrong length, or a wiring record that is not straight after SETUP";
    case TORALINGE_BAD_VALUE: return "a payload value, a count, a margin or a resistor is out of range";
    case TORALINGE_ASLEEP: return "the chip is in SHIP";
    case TORALINGE_NO_ROOM: return "the output buffer is too short";
    case TORALINGE_NO_CELL: return "no such cell";
    case TORALINGE_OPEN_SENSOR: return "a thermistor count of 9,323 or more";
    case TORALINGE_NO_CODE: return "the wanted threshold lies outside its window";
    case TORALINGE_CUT: return "a record is cut short, or there is none";
    case TORALINGE_NOT_CONNECTED: return "the cell is not connected, or no cell is";
    case TORALINGE_NO_FIT: return "a value does not fit its Smart Battery word";
    case TORALINGE_EXTERNAL: return "a temperature is asked for with TEMP_SEL 1";
    case TORALINGE_NO_ROW: return "a wiring record with a number of cells that the part has no row for";
    case TORALINGE_NO_LIST: return "not a command list";
    case TORALINGE_BAD_ADDRESS: return "a command list has an address outside 0x08 to 0x77";
    case TORALINGE_SEASON_FULL: return "a season would have more than 65,535 scans";
    case TORALINGE_BAD_COMMAND: return "not a Smart Battery command that is answered";
    case TORALINGE_TOO_LONG: return "a stream is longer than the call takes";
    case TORALINGE_OTHER_CHIP: return "reports of different chips: part, gain, offset, row or floor";
    case TORALINGE_NO_CHIP: return "bytes that are no chip, or no report";
    case TORALINGE_NO_RECORD: return "the stream has no such record";
    case TORALINGE_NOT_SO: return "the bit is not up, or the drive not off";
    default: return "unknown number";
    }
}

const char *toralinge_version(void)
{
    return TORALINGE_VERSION;
}
