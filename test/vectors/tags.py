"""Tags, checks and fields (tag.txt), and timestamps (timestamp.txt)."""

import struct

import layouts
from writing import Vectors, digits

TAG = "codec_tests::structures::"
FIRST = "codec_tests::first_faults::"


def terminating(location: int, changes: "list[tuple[int, int]]" = []) -> bytes:
    """A terminating descriptor; its checksum is that of the changed tag, to which a change of byte 4 is added."""
    data = bytearray(layouts.seal(8, location, bytes(512)))
    more = 0
    for at, byte in changes:
        if at == 4:
            more = byte
        else:
            data[at] = byte
    data[4] = (layouts.checksum(bytes(data[:16])) + more) % 256
    return bytes(data)


def tags() -> Vectors:
    v = Vectors("tag.txt", "Tags of descriptors, the CRC, and the fields of which descriptors are made. `tag ID LOCATION` reads the "
                "bytes as one whole descriptor; its faults are reported in the order of their numbers.")
    v.about("ECMA-167 3/7.2.6 gives the CRC of 70 6A 77; that of the digits is the check value of CRC-16/XMODEM.")
    v.case("no-bytes", TAG + "published_checks", "crc -> 0000")
    v.case("three-bytes", TAG + "published_checks", "bytes 706A77", "crc -> 3299")
    v.case("nine-digits", TAG + "published_checks", 'bytes "123456789"', "crc -> 31C3")
    v.about("Terminating descriptors (ECMA-167 3/10.9) at their three addresses (docs/FORMAT.md, The volume header). The CRC of zeros is 0.")
    for location in (37, 53, 65):
        v.case(f"terminating-at-{location}", TAG + "terminating_tags codec_tests::front::blocks_of_a_front",
               "bytes " + digits(terminating(location)), f"tag 8 {location} -> crc 0000 length 496")
    block = layouts.block(terminating(37))
    v.case("the-block-of-a-terminating-descriptor", TAG + "terminating_tags", "bytes " + digits(block), "crc -> FDC1")
    _faults(v)
    _identifier(v)
    _fields(v)
    return v


def _faults(v: Vectors) -> None:
    v.about("One fault each (ECMA-167 3/7.2; that the CRC covers the whole descriptor is of the profile). The checksum is made good "
            "where a later fault is to be seen.")
    sound = terminating(37)
    rows = [("version", 2, 2, 0x21, 3), ("checksum", 5, 1, 0x22, 4), ("reserved", 5, 1, 0x23, 5), ("serial", 6, 2, 0x23, 6),
            ("length", 10, 0xEF, 0x21, 7), ("crc", 8, 1, 0x23, 8), ("byte-20", 20, 1, 0x22, 8), ("byte-511", 511, 1, 0x22, 8),
            ("location", 12, 0x26, 0x23, 9)]
    for name, at, byte, check, fault in rows:
        data = layouts.changed(sound, [(at, byte), (4, check)])
        v.case(f"another-{name}", TAG + "faults_of_a_tag", "bytes " + digits(data), f"tag 8 37 -> fault {fault}")
    v.case("fifteen-bytes", TAG + "faults_of_a_tag " + FIRST + "of_a_tag", "bytes " + digits(sound[:15]), "tag 8 37 -> fault 1")
    v.case("another-descriptor", TAG + "faults_of_a_tag", "bytes " + digits(sound), "tag 2 37 -> fault 2")
    v.case("a-byte-less", TAG + "faults_of_a_tag", "bytes " + digits(sound[:511]), "tag 8 37 -> fault 7")
    v.case("another-place", TAG + "faults_of_a_tag", "bytes " + digits(sound), "tag 8 38 -> fault 9")
    v.case("another-place-and-byte", TAG + "faults_of_a_tag", "bytes " + digits(layouts.changed(sound, [(20, 1)])),
           "tag 8 38 -> fault 8")
    v.about("The first of two faults: each with the next one of the list.")
    faults = [(2, 0, 2), (3, 2, 2), (4, 4, 1), (5, 5, 1), (6, 6, 2), (7, 10, 0xEF), (8, 8, 1), (9, 12, 0x26)]
    v.case("short-and-another", FIRST + "of_a_tag", "bytes " + digits(terminating(37, [(0, 2)])[:15]), "tag 8 37 -> fault 1")
    for fault, at, byte in faults:
        v.case(f"fault-{fault}", FIRST + "of_a_tag", "bytes " + digits(terminating(37, [(at, byte)])), f"tag 8 37 -> fault {fault}")
    for (fault, at, byte), (other, behind, more) in zip(faults, faults[1:]):
        v.case(f"fault-{fault}-and-{other}", FIRST + "of_a_tag", "bytes " + digits(terminating(37, [(at, byte), (behind, more)])),
               f"tag 8 37 -> fault {fault}")


def _identifier(v: Vectors) -> None:
    v.about("The file identifier of a parent, as it begins the root's data (ECMA-167 4/14.4), as a descriptor and as its fields.")
    data = layouts.parent(1, 6)
    of = TAG + "parent_identifier"
    v.case("the-identifier-of-a-parent", of, "bytes " + digits(data), "tag 257 6 -> crc 897F length 24")
    v.case("the-fields-of-a-parent", of, "bytes " + digits(data[16:]),
           "fields -> u16:1 u8:10 u8:0 long_ad:2048,1,1,0,0 u16:0 zeros:2")


def _fields(v: Vectors) -> None:
    v.about("EntityIDs (ECMA-167 1/7.4), the character set (UDF 2.01 2.1.2), extents (ECMA-167 3/7.1, 4/7.1, 4/14.14.2).")
    of = TAG + "structures"
    v.case("an-empty-identifier", of, "bytes 00*32", "fields -> entity_id:empty")
    v.case("the-developer", of, "bytes " + digits(layouts.DEVELOPER), "fields -> entity_id:developer")
    v.case("the-domain", of, "bytes " + digits(layouts.DOMAIN), "fields -> entity_id:domain")
    v.case("the-character-set", of, "bytes " + digits(layouts.CS0), "fields -> cs0")
    v.case("the-suffix-of-udf", of, "bytes 0102 000000000000", "fields -> udf-suffix")
    v.case("an-extent", of, "bytes 0080000030000000", "fields -> extent_ad:32768,48")
    v.case("an-address", of, "bytes 010203040506", f"fields -> lb_addr:{0x0403_0201},{0x0605}")
    v.case("a-long-extent", of, "bytes 00080000020000000100000010000000", "fields -> long_ad:2048,2,1,0,16")
    every = struct.pack("<BIQ", 1, 0x0504_0302, 0x0D0C_0B0A_0908_0706) + b"xy" + layouts.extent(8192, 64)
    every += struct.pack("<IH", 7, 1) + layouts.DEVELOPER
    v.case("fields-of-each-form", TAG + "fields_of_each_form", "bytes " + digits(every),
           f'fields -> u8:1 u32:{0x0504_0302} u64:{0x0D0C_0B0A_0908_0706} "xy" extent_ad:8192,64 lb_addr:7,1 '
           "entity_id:developer")


def timestamps() -> Vectors:
    v = Vectors("timestamp.txt", "Timestamps (ECMA-167 1/7.3). A moment counts microseconds from 1970-01-01 UTC, and is before 2100 "
                "(docs/FORMAT.md, Limits). A moment has one timestamp, and other bytes are none.")
    for name, moment, data in [
        ("the-first", 0, "0010B2070101000000000000"), ("with-fractions", 1_234_567, "0010B20701010000 01172D43"),
        ("a-leap-day", 951_782_400_000_000, "0010D007021D000000000000"),
        ("the-last", 4_102_444_799_999_999, "001033080C1F173B3B636363"),
    ]:
        assert layouts.timestamp(moment) == bytes.fromhex(data), name
        v.case(name, TAG + "moments", f"bytes {data}", f"timestamp -> moment {moment}", f"moment {moment} -> {data.replace(' ', '')}")
    v.case("past-the-last", TAG + "moments", "moment 4102444800000000 -> none")
    v.about("No timestamps: another type or zone, before 1970, no such day, no such second, no such fraction, no such month, and 2100.")
    for name, data in [
        ("the-type", "0000B2070101000000000000"), ("before-1970", "0010B1070C1F173B3B636363"), ("a-day", "0010B207021E000000000000"),
        ("a-second", "0010B207010100003C000000"), ("a-centisecond", "0010B2070101000000640000"),
        ("a-microsecond", "0010B2070101000000000064"), ("a-month", "0010B2078101000000000000"),
        ("past-2099", "001034080101000000000000"),
    ]:
        v.case(f"none-by-{name}", TAG + "no_moments", f"bytes {data}", "timestamp -> none")
    return v
