// Buffers of length 0 as C++ has them: an empty std::vector, whose pointer is NULL. It checks every answer; a wrong one ends
// the program with status 1.
#include <gbasave.h>
#include <gbasave_replay.h>

#include <algorithm>
#include <cstdio>
#include <cstdlib>
#include <iterator>
#include <string>
#include <vector>

using bytes = std::vector<std::uint8_t>;
using counts = std::vector<std::uint16_t>;

static void expect(const char *what, bool so)
{
    if (!so) {
        std::fprintf(stderr, "empty: check failed: %s\n", what);
        std::exit(1);
    }
}

static bytes image_with(const std::string &marker)
{
    bytes image(1024);
    std::copy(marker.begin(), marker.end(), image.begin() + 512);
    return image;
}

static void no_image()
{
    bytes image, memory;
    counts tallies;
    gbasave_record record;
    std::uint32_t value = 7, handed = 7;
    expect("opening no image", gbasave_from_bytes(&record, image.data(), 0, GBASAVE_PART_USUAL, memory.data(), 0,
                                                  tallies.data(), 0) == GBASAVE_REFUSED_IMAGE_LENGTH);
    expect("kind of no image", gbasave_detect_save_type(image.data(), 0, &value) == GBASAVE_REFUSED_IMAGE_LENGTH);
    expect("search of no image", gbasave_search(image.data(), 0, &value, &handed) == GBASAVE_REFUSED_IMAGE_LENGTH);
    expect("CRC of no image", gbasave_rom_crc(image.data(), 0, &value) == GBASAVE_REFUSED_IMAGE_LENGTH);
    expect("header check of no image", gbasave_header_checksum(image.data(), 0, &value) == GBASAVE_REFUSED_IMAGE_LENGTH);
    expect("byte of no image", gbasave_read(image.data(), 0, 0, &value) == GBASAVE_REFUSED_IMAGE_LENGTH);
    expect("two bytes of no image", gbasave_read16(image.data(), 0, 0, &value) == GBASAVE_REFUSED_IMAGE_LENGTH);
    expect("four bytes of no image", gbasave_read32(image.data(), 0, 0, &value) == GBASAVE_REFUSED_IMAGE_LENGTH);
    expect("title of no image", gbasave_title(image.data(), 0, memory.data(), 0, &value) == GBASAVE_REFUSED_IMAGE_LENGTH);
    expect("a refused call writes no value", value == 7 && handed == 7);
    expect("size for no image", gbasave_save_size(image.data(), 0, &value) == 0 && value == 0);
    expect("no file fits no image", gbasave_save_fit(image.data(), 0, 32768, &value) == 0 && value == 0);
    std::puts("an empty image: refused, 1; no memory, no file");
}

static void no_memory()
{
    const bytes image = image_with("");
    bytes memory, file;
    counts none;
    gbasave_record record;
    std::uint32_t value = 7, changed = 7;
    expect("opening", gbasave_from_bytes(&record, image.data(), image.size(), GBASAVE_PART_USUAL, memory.data(), 0,
                                         none.data(), 0) == 0);
    expect("kind NONE", record.bytes[GBASAVE_RECORD_KIND] == GBASAVE_KIND_NONE);
    expect("the usual part", record.bytes[GBASAVE_RECORD_PART] == GBASAVE_PART_USUAL);
    expect("no ID word", gbasave_id_word(GBASAVE_PART_USUAL, GBASAVE_KIND_NONE, &value) == 0 && value == 0);
    expect("byte write", gbasave_save_write(&record, memory.data(), 0, none.data(), 0, 0x0E000000, 1, &changed) == 0 &&
                             changed == 0);
    expect("byte read", gbasave_save_read(&record, memory.data(), 0, 0x0E000000, &value) == 0 && value == 0xFF);
    expect("bit out", gbasave_eeprom_read(&record, memory.data(), 0, &value) == 0 && value == 1);
    changed = 7;
    expect("bit in",
           gbasave_eeprom_write(&record, memory.data(), 0, none.data(), 0, 1, &changed) == GBASAVE_REFUSED_NO_EEPROM);
    expect("a refused bit writes no number", changed == 7);
    expect("load", gbasave_load_save(&record, memory.data(), 0, none.data(), 0, file.data(), 0, &changed) == 0 &&
                       changed == 0);
    expect("export", gbasave_save_data(&record, memory.data(), 0, file.data(), 0, &value) == 0 && value == 0);
    expect("import", gbasave_import_save(&record, memory.data(), 0, none.data(), 0, file.data(), 0, &value, &changed) ==
                         GBASAVE_REFUSED_FILE_LENGTH);
    expect("is it blank", gbasave_is_blank(&record, none.data(), 0, &value) == 0 && value == 1);
    expect("first in use", gbasave_first_in_use(&record, none.data(), 0, &value) == 0 && value == GBASAVE_NONE_IN_USE);
    expect("restore", gbasave_restore_chip_state(&record, file.data(), 0) == GBASAVE_REFUSED_STATE_LENGTH);
    expect("title", gbasave_title(image.data(), image.size(), file.data(), 0, &value) == 0 && value == 0);
    std::puts("kind NONE with an empty memory and no tallies: opens, plays, loads and exports no bytes; it is blank");
}

static void no_piece()
{
    bytes piece;
    std::uint32_t crc, before;
    expect("CRC, start", gbasave_crc_start(&crc) == 0);
    before = crc;
    expect("an empty piece changes nothing", gbasave_crc_feed(&crc, piece.data(), piece.size()) == 0 && crc == before);
    expect("CRC of no bytes", gbasave_crc_finish(&crc) == 0 && crc == 0);
    std::puts("an empty piece of an image: the CRC goes on from where it was");
}

// Empty pieces before and after each half of a marker, then an empty header.
static void no_piece_and_no_header()
{
    const bytes image = image_with("FLASH1M_V");
    bytes nothing;
    gbasave_matcher matcher;
    std::uint32_t done = 7, kind = 7;
    const auto feed = [&](const std::uint8_t *piece, std::size_t length) {
        expect("piece", gbasave_matcher_feed(&matcher, piece, length, &done) == 0 && done == 0);
    };
    expect("matcher, start", gbasave_matcher_start(&matcher) == 0);
    feed(nothing.data(), 0);
    feed(image.data(), 516);
    const gbasave_matcher before = matcher;
    feed(nothing.data(), 0);
    expect("an empty piece changes nothing", std::equal(matcher.bytes, std::end(matcher.bytes), before.bytes));
    feed(image.data() + 516, image.size() - 516);
    feed(nothing.data(), 0);
    expect("an empty header",
           gbasave_matcher_finish(&matcher, nothing.data(), 0, image.size(), &kind) == GBASAVE_REFUSED_IMAGE_LENGTH);
    expect("a refused call writes no kind", kind == 7);
    expect("the kind", gbasave_matcher_finish(&matcher, image.data(), image.size(), image.size(), &kind) == 0 &&
                           kind == GBASAVE_KIND_FLASH128);
    std::puts("an empty piece of an image: the matcher goes on from where it was; an empty header: refused, 1");
}

// The end of a replay is the file's status and length, and the state with its status: of a fresh kind NONE all 0, except for
// the layout number, the last byte.
static void no_list()
{
    const bytes image = image_with("");
    bytes nothing, out(GBASAVE_REPLAY_END(0), 0x5A), end(out.size());
    const bytes as_it_was = out;
    end.back() = 2;
    const auto replay = [&](const bytes &of, std::uint32_t part, bytes &to) {
        return gbasave_replay(of.data(), of.size(), part, nothing.data(), 0, nothing.data(), 0, nothing.data(), 0, to.data(),
                              to.size());
    };
    expect("replay, empty image", replay(nothing, GBASAVE_PART_USUAL, out) == GBASAVE_REFUSED_IMAGE_LENGTH);
    expect("replay, no flash for the part", replay(image, GBASAVE_PART_SST_64K, out) == GBASAVE_REFUSED_PART);
    expect("replay, empty output", replay(image, GBASAVE_PART_USUAL, nothing) == GBASAVE_REFUSED_DESTINATION_LENGTH);
    expect("a refused replay writes nothing", out == as_it_was);
    expect("replay", replay(image, GBASAVE_PART_USUAL, out) == 0);
    expect("the end alone", out == end);
    std::puts("a replay of an empty list, with an empty memory and scratch: writes the end alone");
}

// A kind with a memory: each other buffer is empty in turn, then the memory, then the tallies.
static void no_file(const std::string &marker)
{
    const bytes image = image_with(marker);
    bytes nothing;
    counts none;
    gbasave_record record;
    std::uint32_t size, value = 7, changed = 7;
    expect("size", gbasave_save_size(image.data(), image.size(), &size) == 0 && size > 0);
    bytes memory(size, 0x5A);
    counts tallies(size / GBASAVE_STRETCH_SIZE, 0x5A5A);
    const std::size_t count = tallies.size();
    const auto open = [&](bytes &of, counts &with) {
        return gbasave_from_bytes(&record, image.data(), image.size(), GBASAVE_PART_USUAL, of.data(), of.size(), with.data(),
                                  with.size());
    };
    expect("opening, empty memory", open(nothing, tallies) == GBASAVE_REFUSED_MEMORY_LENGTH);
    expect("opening, no tallies", open(memory, none) == GBASAVE_REFUSED_TALLY_COUNT);
    expect("opening, both", open(nothing, none) == GBASAVE_REFUSED_MEMORY_LENGTH);
    expect("a refused opening leaves both", memory == bytes(size, 0x5A) && tallies == counts(count, 0x5A5A));
    expect("opening", open(memory, tallies) == 0 && tallies == counts(count, 0));

    const auto write = [&](bytes &to, counts &with) {
        return gbasave_save_write(&record, to.data(), to.size(), with.data(), with.size(), 0, 1, &changed);
    };
    const auto bit_in = [&](bytes &to, counts &with) {
        return gbasave_eeprom_write(&record, to.data(), to.size(), with.data(), with.size(), 1, &changed);
    };
    const auto load = [&](bytes &to, counts &with, const bytes &file) {
        return gbasave_load_save(&record, to.data(), to.size(), with.data(), with.size(), file.data(), file.size(), &changed);
    };
    const auto import = [&](bytes &to, counts &with) {
        return gbasave_import_save(&record, to.data(), to.size(), with.data(), with.size(), nothing.data(), 0, &value,
                                   &changed);
    };
    expect("load", load(memory, tallies, bytes(size, 0x5A)) == 0 && tallies == counts(count, GBASAVE_STRETCH_SIZE));
    value = changed = 7;
    expect("import", import(memory, tallies) == GBASAVE_REFUSED_FILE_LENGTH);
    expect("import, no tallies", import(memory, none) == GBASAVE_REFUSED_TALLY_COUNT);
    expect("export",
           gbasave_save_data(&record, memory.data(), size, nothing.data(), 0, &value) == GBASAVE_REFUSED_DESTINATION_LENGTH);
    expect("byte read", gbasave_save_read(&record, nothing.data(), 0, 0, &value) == GBASAVE_REFUSED_MEMORY_LENGTH);
    expect("byte write", write(nothing, tallies) == GBASAVE_REFUSED_MEMORY_LENGTH);
    expect("byte write, no tallies", write(memory, none) == GBASAVE_REFUSED_TALLY_COUNT);
    expect("bit out", gbasave_eeprom_read(&record, nothing.data(), 0, &value) == GBASAVE_REFUSED_MEMORY_LENGTH);
    expect("bit in", bit_in(nothing, tallies) == GBASAVE_REFUSED_MEMORY_LENGTH);
    expect("bit in, no tallies", bit_in(memory, none) == GBASAVE_REFUSED_TALLY_COUNT);
    expect("load, empty memory", load(nothing, tallies, nothing) == GBASAVE_REFUSED_MEMORY_LENGTH);
    expect("load, no tallies", load(memory, none, nothing) == GBASAVE_REFUSED_TALLY_COUNT);
    expect("is it blank, no tallies", gbasave_is_blank(&record, none.data(), 0, &value) == GBASAVE_REFUSED_TALLY_COUNT);
    expect("first in use, no tallies",
           gbasave_first_in_use(&record, none.data(), 0, &value) == GBASAVE_REFUSED_TALLY_COUNT);
    expect("refused calls change nothing", value == 7 && changed == 7 && memory == bytes(size, 0x5A) &&
                                               tallies == counts(count, GBASAVE_STRETCH_SIZE));
    expect("an empty file erases, and changes every byte",
           load(memory, tallies, nothing) == 0 && memory == bytes(size, 0xFF) && changed == size);
    expect("the tallies are 0 then", tallies == counts(count, 0));
    expect("again it changes none", load(memory, tallies, nothing) == 0 && changed == 0 && tallies == counts(count, 0));
    std::printf("%s: an empty file erases the memory; empty memories, tallies, destinations and imports are refused\n",
                marker.c_str());
}

int main()
{
    expect("an empty vector has NULL", bytes().data() == nullptr && counts().data() == nullptr);
    expect("the archive has the header's version", gbasave_version() == GBASAVE_VERSION_NUMBER);
    no_image();
    no_memory();
    for (const char *marker : {"SRAM_V", "FLASH_V", "FLASH1M_V", "EEPROM_V"})
        no_file(marker);
    no_piece();
    no_piece_and_no_header();
    no_list();
    return 0;
}
