/*
 * Tests each entry point and each refusal through the C interface, with guards
 * around every lent memory. Prints one line for each check; the last one counts
 * them.
 */
#include "adv7194.h"
#include "adv7195.h"
#include "boards.h"
#include "calls.h"
#include "captions.h"
#include "compare.h"
#include "lent.h"
#include "limits.h"
#include "players.h"
#include "progressive.h"
#include "reasons.h"
#include "transactions.h"

/* Reads an image with one register replaced. */
static void read_with(const char *what, const bytes *image, int reg, uint8_t value, uint32_t refusal,
                      uint32_t field)
{
    read_replaced(what, image, reg, value, ADV7194_ALL_KNOWN, refusal, field);
}

/* Plans the house setting with one number replaced. */
static void plan_with(const char *what, bytes *image, int place, int32_t value, uint32_t refusal, uint32_t field)
{
    bytes lent;
    numbers settings;
    house(&settings);
    settings.at[place] = value;
    fill_bytes(&lent, BEFORE_BYTE);
    plan(what, image, IMAGE, &settings, NUMBERS, ADDRESS, &lent, ADV7194_PLAN_ROOM,
         refusal, field);
}

/* Asks for the house setting in so many lent numbers, and checks the answer and that nothing past them is touched. */
static void house_in(const char *what, size_t length, uint32_t refusal)
{
    numbers lent, wanted;
    fill_numbers(&lent, BEFORE_NUMBER);
    wanted = lent;
    adv7194_read_answer answer = adv7194_house(lent.at, length);
    if (refusal == ADV7194_ACCEPTED)
        memcpy(wanted.at, lent.at, NUMBERS * sizeof lent.at[0]);
    check(what, answer.refusal == refusal && answer.field == 0 && memcmp(&lent, &wanted, sizeof lent) == 0);
}

/* The house setting: its lengths, and that its pedestal is off. */
static void test_house(bytes *image)
{
    static const uint8_t pedestal_off[] = {0x04, 0x20, 0x40, 0x00};
    bytes lent, other = *image;
    numbers settings;
    house_in("house", NUMBERS, ADV7194_ACCEPTED);
    house_in("house refusal 3, 48 numbers", NUMBERS - 1, ADV7194_OUT_OF_RANGE);
    house_in("house refusal 3, 50 numbers", NUMBERS + 1, ADV7194_OUT_OF_RANGE);
    house_in("house refusal 3, no numbers", 0, ADV7194_OUT_OF_RANGE);
    house(&settings);
    check("the pedestal is off", settings.at[ADV7194_PEDESTAL] == 0 && image->at[PEDESTAL_REGISTER] == 0x00);
    other.at[PEDESTAL_REGISTER] = PEDESTAL_BIT;
    fill_bytes(&lent, BEFORE_BYTE);
    adv7194_plan_answer answer = plan("plan the pedestal off", &other, IMAGE, &settings, NUMBERS, ADDRESS, &lent, MOST,
                                      ADV7194_ACCEPTED, 0);
    check("pedestal off is 04 20 40 00", answer.length == sizeof pedestal_off && answer.transactions == 1 &&
                                             answer.bus_bytes == 3 &&
                                             memcmp(lent.at, pedestal_off, sizeof pedestal_off) == 0);
}

/* An image that the house setting needs nothing for. */
static void settle(bytes *image)
{
    bytes lent;
    numbers settings;
    fill_bytes(image, 0);
    fill_bytes(&lent, BEFORE_BYTE);
    house(&settings);
    adv7194_plan_answer answer = plan("plan the house setting", image, IMAGE, &settings,
                                      NUMBERS, ADDRESS, &lent, ADV7194_PLAN_ROOM, ADV7194_ACCEPTED, 0);
    if (answer.length <= MOST)
        play("play it", image, IMAGE, ADDRESS, ADDRESS, lent.at, answer.length, ADV7194_ACCEPTED, 1);
}

/* Plans that are accepted. */
static void test_plan(bytes *image)
{
    static const uint8_t hue_alone[] = {0x06, 0x00, 0x65, 0xC0};
    bytes lent;
    numbers settings;
    house(&settings);
    fill_bytes(&lent, BEFORE_BYTE);
    adv7194_plan_answer answer = plan("plan nothing", image, IMAGE, &settings, ADV7194_SETTINGS,
                                      ADDRESS, &lent, 1, ADV7194_ACCEPTED, 0);
    check("nothing to do is 00", answer.length == 1 && answer.transactions == 0 && answer.bus_bytes == 0 &&
                                     lent.at[0] == 0x00);
    settings.at[ADV7194_HUE] = 40;
    fill_bytes(&lent, BEFORE_BYTE);
    answer = plan("plan hue alone", image, IMAGE, &settings, NUMBERS, ADDRESS, &lent, MOST,
                  ADV7194_ACCEPTED, 0);
    check("hue alone is 06 00 65 C0", answer.length == sizeof hue_alone && answer.transactions == 1 &&
                                          answer.bus_bytes == 3 &&
                                          memcmp(lent.at, hue_alone, sizeof hue_alone) == 0);
    bytes other = *image;
    other.at[WORD_LAST_REGISTER] ^= 1;
    house(&settings);
    answer = plan("plan the word", &other, IMAGE, &settings, NUMBERS, ADDRESS, &lent, MOST,
                  ADV7194_ACCEPTED, 0);
    check("the word is one transaction, 6 bytes", answer.transactions == 1 && answer.bus_bytes == 6);
}

/* Plans that are refused: lengths, addresses, room. */
static void test_plan_refused(bytes *image)
{
    bytes lent;
    numbers s;
    fill_bytes(&lent, BEFORE_BYTE);
    house(&s);
    plan("plan refusal 1, 53 bytes", image, IMAGE - 1, &s, NUMBERS, ADDRESS, &lent, MOST, ADV7194_IMAGE_LENGTH, 0);
    plan("plan refusal 1, before 2", image, IMAGE + 1, &s, NUMBERS, 1, &lent, MOST, ADV7194_IMAGE_LENGTH, 0);
    plan("plan refusal 2, odd", image, IMAGE, &s, NUMBERS, ADDRESS + 1, &lent, MOST, ADV7194_ADDRESS, 0);
    plan("plan refusal 2, wide", image, IMAGE, &s, NUMBERS, WIDE_ADDRESS, &lent, MOST, ADV7194_ADDRESS, 0);
    plan("plan refusal 2, before 3", image, IMAGE, &s, NUMBERS - 1, 256, &lent, MOST, ADV7194_ADDRESS, 0);
    plan("plan refusal 3, 48", image, IMAGE, &s, NUMBERS - 1, ADDRESS, &lent, MOST, ADV7194_OUT_OF_RANGE, 0);
    plan("plan refusal 3, 50", image, IMAGE, &s, NUMBERS + 1, ADDRESS, &lent, MOST, ADV7194_OUT_OF_RANGE, 0);
    plan("plan refusal 10, no room", image, IMAGE, &s, NUMBERS, ADDRESS, &lent, 0, ADV7194_PLAN_TOO_SHORT, 0);
    s.at[ADV7194_HUE] = 40;
    plan("plan refusal 10, short", image, IMAGE, &s, NUMBERS, ADDRESS, &lent, 3, ADV7194_PLAN_TOO_SHORT, 0);
    plan("plan with just room", image, IMAGE, &s, NUMBERS, ADDRESS, &lent, 4, ADV7194_ACCEPTED, 0);
}

/* Plans with these settings, all else being right. */
static void plan_set(const char *what, bytes *image, numbers *settings, uint32_t refusal, uint32_t field)
{
    bytes lent;
    fill_bytes(&lent, BEFORE_BYTE);
    plan(what, image, IMAGE, settings, NUMBERS, ADDRESS, &lent, MOST, refusal, field);
}

/* Settings that are refused, and some beside them that aren't. */
static void test_settings_refused(bytes *image)
{
    numbers pedestal;
    house(&pedestal);
    pedestal.at[ADV7194_PEDESTAL] = 1;
    plan_with("plan refusal 3, standard 4", image, ADV7194_STANDARD, 4, ADV7194_OUT_OF_RANGE, 1);
    plan_with("plan refusal 4, standard 2", image, ADV7194_STANDARD, 2, ADV7194_RESERVED, 1);
    plan_with("plan refusal 5, square with 4x", image, ADV7194_SQUARE, 1, ADV7194_SQUARE_FOUR_TIMES, 3);
    plan_with("plan accepts PAL", image, ADV7194_STANDARD, ADV7194_PAL, ADV7194_ACCEPTED, 0);
    plan_set("plan accepts the pedestal", image, &pedestal, ADV7194_ACCEPTED, 0);
    pedestal.at[ADV7194_STANDARD] = ADV7194_PAL;
    plan_set("plan refusal 6, pedestal with PAL", image, &pedestal, ADV7194_PEDESTAL_PAL, 4);
    plan_with("plan refusal 7, CGMS for neither field", image, ADV7194_SIGNALLING, ADV7194_CGMS,
              ADV7194_WRONG_SIGNALLING, 11);
    plan_with("plan refusal 7, WSS with NTSC", image, ADV7194_SIGNALLING, ADV7194_WSS, ADV7194_WRONG_SIGNALLING, 11);
    plan_with("plan refusal 3, no such signalling", image, ADV7194_SIGNALLING, 3, ADV7194_OUT_OF_RANGE, 11);
    plan_with("plan accepts a number that off doesn't use", image, ADV7194_PAYLOAD, -1, ADV7194_ACCEPTED, 0);
    plan_with("plan refusal 3, U scale 1997", image, ADV7194_U_SCALE, 1997, ADV7194_OUT_OF_RANGE, 13);
    plan_with("plan refusal 3, hue 225", image, ADV7194_HUE, 225, ADV7194_OUT_OF_RANGE, 15);
    plan_with("plan accepts hue -225", image, ADV7194_HUE, -225, ADV7194_ACCEPTED, 0);
    plan_with("plan refusal 4, data gain 9", image, ADV7194_DATA_GAIN, 9, ADV7194_RESERVED, 19);
    plan_with("plan refusal 4, DNR input 0", image, ADV7194_DNR_INPUT, 0, ADV7194_RESERVED, 23);
    plan_with("plan refusal 3, curve B 1/4", image, ADV7194_CURVE_B_Q, 4, ADV7194_OUT_OF_RANGE, 27);
}

/* Signalling in settings: 7 before 3, and 3 before 4. */
static void test_signalling_refused(bytes *image)
{
    numbers settings;
    house(&settings);
    settings.at[ADV7194_SIGNALLING] = ADV7194_CGMS;
    settings.at[ADV7194_PAYLOAD] = 16384;
    plan_set("plan refusal 7, before 3", image, &settings, ADV7194_WRONG_SIGNALLING, 11);
    settings.at[ADV7194_ODD] = 1;
    plan_set("plan refusal 3, payload 16384", image, &settings, ADV7194_OUT_OF_RANGE, 11);
    settings.at[ADV7194_STANDARD] = ADV7194_PAL;
    settings.at[ADV7194_PEDESTAL] = 0;
    plan_set("plan refusal 7, CGMS with PAL", image, &settings, ADV7194_WRONG_SIGNALLING, 11);
    settings.at[ADV7194_SIGNALLING] = ADV7194_WSS;
    plan_set("plan refusal 3, before 4", image, &settings, ADV7194_OUT_OF_RANGE, 11);
    settings.at[ADV7194_PAYLOAD] = 3;
    plan_set("plan refusal 4, WSS with two ones", image, &settings, ADV7194_RESERVED, 11);
    settings.at[ADV7194_PAYLOAD] = 7;
    plan_set("plan accepts WSS with three ones", image, &settings, ADV7194_ACCEPTED, 0);
}

/* Playing. */
static void test_play(void)
{
    static const uint8_t sound[] = {0x06, 0x00, 0x65, 0xC0};
    static const uint8_t filled[] = {0x06, 0x00, 0x65, 0xC1};
    static const uint8_t longer[] = {0x06, 0x00, 0x65, 0xC0, 0x00};
    static const uint8_t read_only[] = {0x07, 0x40, 0x65, 0xC0};
    static const uint8_t empty[] = {0x00};
    bytes image;
    fill_bytes(&image, 0);
    play("play at another address", &image, IMAGE, OTHER_ADDRESS, ADDRESS, sound, 4, ADV7194_ACCEPTED, 0);
    play("play hue", &image, IMAGE, ADDRESS, ADDRESS, sound, 4, ADV7194_ACCEPTED, 1);
    check("hue is 97", image.at[HUE_REGISTER] == 0x97);
    play("play nothing at another address", &image, IMAGE, OTHER_ADDRESS, ADDRESS, empty, 1, ADV7194_ACCEPTED, 1);
    play("play refusal 1", &image, IMAGE - 1, ADDRESS, ADDRESS, sound, 4, ADV7194_IMAGE_LENGTH, 0);
    play("play refusal 2, used", &image, IMAGE, ADDRESS + 1, ADDRESS, sound, 4, ADV7194_ADDRESS, 0);
    play("play refusal 2, own", &image, IMAGE, ADDRESS, WIDE_ADDRESS, sound, 4, ADV7194_ADDRESS, 0);
    play("play refusal 2, before 9", &image, IMAGE, WIDE_ADDRESS, WIDE_ADDRESS, sound, 3, ADV7194_ADDRESS, 0);
    play("play refusal 9, cut", &image, IMAGE, ADDRESS, ADDRESS, sound, 3, ADV7194_PLAN_BYTES, 0);
    play("play refusal 9, extended", &image, IMAGE, ADDRESS, ADDRESS, longer, 5, ADV7194_PLAN_BYTES, 0);
    play("play refusal 9, filled with a one", &image, IMAGE, ADDRESS, ADDRESS, filled, 4, ADV7194_PLAN_BYTES, 0);
    play("play refusal 9, register 34", &image, IMAGE, ADDRESS, ADDRESS, read_only, 4, ADV7194_PLAN_BYTES, 0);
    play("play refusal 9, no bytes", &image, IMAGE, ADDRESS, ADDRESS, NULL, 0, ADV7194_PLAN_BYTES, 0);
}

/* Reading. */
static void test_read(bytes *image)
{
    numbers settings;
    bytes pedestal = *image;
    pedestal.at[PEDESTAL_REGISTER] |= PEDESTAL_BIT;
    fill_numbers(&settings, BEFORE_NUMBER);
    read_into("read the house setting", image, IMAGE, &settings, NUMBERS, ADV7194_ACCEPTED, 0);
    check("contrast is read nearest zero", settings.at[ADV7194_CONTRAST] == 997);
    check("curves are read as bytes", settings.at[ADV7194_CURVE_A] == ADV7194_BYTES &&
                                          settings.at[ADV7194_CURVE_A_P] == 0 &&
                                          settings.at[ADV7194_CURVE_A_BYTES] == 32);
    fill_numbers(&settings, BEFORE_NUMBER);
    read_into("read refusal 1", image, IMAGE - 1, &settings, NUMBERS, ADV7194_IMAGE_LENGTH, 0);
    read_into("read refusal 1, before 3", image, IMAGE - 1, &settings, NUMBERS - 1, ADV7194_IMAGE_LENGTH, 0);
    read_into("read refusal 3, 48 numbers", image, IMAGE, &settings, NUMBERS - 1, ADV7194_OUT_OF_RANGE, 0);
    read_with("read refusal 4, standard", image, 0x00, 0x02, ADV7194_RESERVED, 1);
    read_with("read refusal 5", image, 0x02, 0x18, ADV7194_SQUARE_FOUR_TIMES, 3);
    read_with("read refusal 6", &pedestal, 0x00, 0x01, ADV7194_PEDESTAL_PAL, 4);
    read_with("read refusal 7, WSS with NTSC", image, 0x19, 0x80, ADV7194_WRONG_SIGNALLING, 11);
    read_with("read refusal 7, both at once", image, 0x19, 0xA0, ADV7194_WRONG_SIGNALLING, 11);
    read_with("read refusal 4, chip check alone", image, 0x19, 0x10, ADV7194_RESERVED, 11);
    read_with("read refusal 8, check bits", image, 0x19, 0x20, ADV7194_DISAGREES, 11);
    read_with("read refusal 3, contrast C1", image, 0x1D, 0xC1, ADV7194_OUT_OF_RANGE, 12);
    read_with("read refusal 3, brightness 9F", image, 0x21, 0x9F, ADV7194_OUT_OF_RANGE, 16);
    read_with("read refusal 4, brightness 80", image, 0x21, 0x80, ADV7194_RESERVED, 16);
    read_with("read refusal 8, word", image, WORD_LAST_REGISTER, 0x00, ADV7194_DISAGREES, ADV7194_FIELD_WORD);
}

/* Null with length 0, in every place. */
static void test_null(bytes *image)
{
    static const uint8_t empty[] = {0x00};
    const uint64_t all = ADV7194_ALL_KNOWN;
    const uint32_t free = ADV7194_NO_LIMIT;
    bytes lent;
    numbers settings;
    house(&settings);
    fill_bytes(&lent, BEFORE_BYTE);
    check("plan, null image",
          adv7194_plan(NULL, 0, all, settings.at, NUMBERS, ADDRESS, free, lent.at, MOST).refusal == 1);
    check("plan, null settings", adv7194_plan(image->at, IMAGE, all, NULL, 0, ADDRESS, free, lent.at, MOST).refusal == 3);
    check("plan, null plan",
          adv7194_plan(image->at, IMAGE, all, settings.at, NUMBERS, ADDRESS, free, NULL, 0).refusal == 10);
    check("plan, all null", adv7194_plan(NULL, 0, all, NULL, 0, 1, 0, NULL, 0).refusal == 1);
    check("play, null image", adv7194_play(NULL, 0, all, ADDRESS, ADDRESS, empty, 1).refusal == 1);
    check("play, null plan", adv7194_play(image->at, IMAGE, all, ADDRESS, ADDRESS, NULL, 0).refusal == 9);
    check("transaction, null plan", adv7194_transaction(NULL, 0, 0, lent.at, MOST).refusal == 9);
    check("transaction, null data", adv7194_transaction(empty, 1, 0, NULL, 0).refusal == 3);
    check("read, null image", adv7194_read(NULL, 0, all, settings.at, NUMBERS).refusal == 1);
    check("read, null settings", adv7194_read(image->at, IMAGE, all, NULL, 0).refusal == 3);
    check("house, null settings", adv7194_house(NULL, 0).refusal == 3);
}

int main(void)
{
    bytes image;
    settle(&image);
    test_house(&image);
    test_plan(&image);
    test_plan_refused(&image);
    test_settings_refused(&image);
    test_signalling_refused(&image);
    test_play();
    test_transaction();
    test_read(&image);
    test_boards(&image);
    test_limits(&image);
    test_reasons(&image);
    test_compare(&image);
    test_captions();
    test_progressive();
    test_null(&image);
    printf("%d passed, %d failed\n", passed, failed);
    return failed == 0 ? 0 : 1;
}
