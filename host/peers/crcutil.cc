// crcutil.cc - the Modbus check by libcrcutil, a CRC library from Debian that
// takes several bytes at a time from tables of its own, behind a C function.
#include <generic_crc.h>

#include <stddef.h>
#include <stdint.h>

namespace {

using Word = crcutil::uint64;

// Polynomial A001, 16 bits, neither start nor answer complemented.
const crcutil::GenericCrc<Word, Word, Word, 4> modbus(0xA001, 16, false);

}  // namespace

extern "C" uint16_t crcutil_modbus_check(const uint8_t *bytes, size_t length)
{
    return static_cast<uint16_t>(modbus.CrcDefault(bytes, length, 0xFFFF));
}
