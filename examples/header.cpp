// include/purse.h in C++: it compiles without a warning, old-style casts included, and a box, the conversions and the sentences are used as in C.
#include <cstring>

#include "purse.h"

static uint8_t image[64 * PURSE_BLOCK], disk[sizeof image], work[PURSE_WORK];

static int write_block(void *, uint64_t block, const uint8_t *bytes)
{
    std::memcpy(disk + block * PURSE_BLOCK, bytes, PURSE_BLOCK);
    return 0;
}

int main()
{
    const uint8_t name[PURSE_NAME] = { 1, 2, 3, 4, 5, 6, 7, 8 };
    uint64_t size = 0;
    purse_session session = PURSE_NEVER_OPENED;
    purse_box box;
    purse_box_lend(&box, image, sizeof image, work, sizeof work);
    bool good = session.blocks == 0 && purse_box_format(&box) == PURSE_OK;
    std::memcpy(disk, image, sizeof disk);
    good = good && purse_box_open(&box, write_block, nullptr).answer == PURSE_OK;
    good = good && purse_box_create(&box, name) == PURSE_OK && purse_box_write(&box, name, 600, nullptr, 0) == PURSE_OK;
    good = good && purse_box_commit(&box, write_block, nullptr).answer == PURSE_OK;
    good = good && purse_box_size(&box, name, &size) == PURSE_OK && size == 600;
    const uint8_t line[] = { '0', '4', 'A', '1', 'B', '2', 'C', '3', ';', 'H', ';', '5', '\n' };
    uint64_t place = 0;
    purse_load_answer step;
    good = good && purse_load_begin(image, sizeof image, work, sizeof work, &box.session) == PURSE_OK;
    good = good && purse_box_load(&box, line, sizeof line, &place, write_block, nullptr).lines == 1 && place == sizeof line;
    good = good && purse_load_step(image, sizeof image, work, sizeof work, &box.session, nullptr, 0, &place, &step) == PURSE_OK;
    good = good && step.kind == PURSE_LOAD_NONE;
    uint8_t converted[15];
    uint64_t length = 0, number = 0;
    good = good && purse_convert_to_d(line, sizeof line, converted, sizeof converted, &length, &number) == PURSE_OK && length == sizeof converted;
    good = good && purse_convert_to_h(line, sizeof line, nullptr, 0, &length, &number) == PURSE_SAME_SPELLING && number == 1;
    good = good && purse_convert_to_h(converted, sizeof converted, nullptr, 0, &length, &number) == PURSE_OUTPUT_TOO_LONG && number == 0;
    good = good && std::memcmp(disk, image, sizeof disk) == 0;
    char sentence[PURSE_SENTENCE];
    image[33 * PURSE_BLOCK + 7] = 0x10;
    const purse_outcome refused = purse_box_open(&box, write_block, nullptr);
    good = good && refused.answer == PURSE_DAMAGED_BLOCK && refused.fault == 60;
    good = good && purse_refusal_sentence(PURSE_DAMAGED_RECORD, 5, sentence, sizeof sentence) == 34;
    return good && std::strcmp(sentence, "a file record is damaged, record 5") == 0 ? 0 : 1;
}
