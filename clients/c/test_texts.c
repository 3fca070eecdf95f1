/* Reading: what a text of a control port says, exactly, whatever comes. */
#include "test.h"

#include <stdio.h>
#include <stdlib.h>

/* Reads a datagram from memory of just its length, so that a reader past its end is caught. The
 * bytes of it come to `bytes`. */
static struct trdp_slot_said said_in(const char *text, size_t length, uint8_t *bytes, size_t room)
{
    struct trdp_slot_said said;
    char *exact = malloc(length > 0 ? length : 1);
    if (exact == NULL)
        abort();
    memcpy(exact, text, length);
    trdp_slot_read(3, exact, length, &said);
    trdp_slot_decode(said.digits, bytes, room);
    free(exact);
    return said;
}

static const char *const good[] = {
    "3 handle 1\n", "3 handle 4294967295\n", "3 done\n", "3 refused NoHandle\n",
    "3 value Never 0 -\n", "3 value Valid 4294967295 0a0b\n", "3 value Silent 7 00\n",
    "3 silent 1\n", "3 alive 4294967295\n", "3 overrun 12\n",
    "3 notified 1 10.0.0.2:17225 300 646f6f72 - 0d\n",
    "3 notified 1 0.0.0.0:0 0 - - -\n",
    "3 asked 1 2 0a0b0c0d-0000-0000-0000-000000000001 255.255.255.255:65535 300 - 636172 -\n",
    "3 replied 1 10.0.0.2:17225 Mp 0 301 0c\n", "3 replied 1 10.0.0.2:17225 Mq 2147483647 301 -\n",
    "3 replied 1 10.0.0.2:17225 Me -2147483648 301 -\n",
    "3 confirmed 1 -5\n", "3 closed 1 Done\n", "3 closed 1 NoReply\n",
    "3 closed 1 NotAllReplies\n", "3 closed 1 NotConfirmed\n", "3 closed 1 ReplyMissed\n",
    "3 closed 1 NoConfirm\n", "line fault Count\n",
};

/* Eight bytes. */
#define AA "6161616161616161"

static const char *const bad[] = {
    "", "\n", "3\n", "3 \n", "3 done", "3  done\n", "3 done \n", " 3 done\n", "3 done\n\n",
    "3 done\r\n", "03 done\n", "3 doned\n", "3 don\n", "65536 done\n", "-3 done\n", "x done\n",
    "3 handle\n", "3 handle \n", "3 handle 01\n", "3 handle 4294967296\n", "3 handle -1\n",
    "3 handle 99999999999999999999999999999999999999999\n", "3 handle 1 2\n", "3 handle 0x1\n",
    "3 value Valid 1\n", "3 value Valid 1 \n", "3 value Valid 1 0\n", "3 value Valid 1 0A\n",
    "3 value Valid 1 0g\n", "3 value Valid 1 --\n", "3 value Valid 1 00-\n", "3 value Val 1 -\n",
    "3 value Valids 1 -\n", "3 value Valid 4294967296 -\n", "3 value  1 -\n",
    "3 refused \n", "3 refused No Handle\n", "3 refused NoHandle \n", "3 refused 7\n",
    "3 silent\n", "3 silent 1 2\n", "3 silent 4294967296\n", "3 opened\n", "3 jumped 1\n",
    "3 notified 1 10.0.0.2:17225 300 - -\n", "3 notified 1 10.0.0.256:17225 300 - - -\n",
    "3 notified 1 10.0.0.2:65536 300 - - -\n", "3 notified 1 10.0.02:17225 300 - - -\n",
    "3 notified 1 10.0.0.02:17225 300 - - -\n", "3 notified 1 10.0.0.2 300 - - -\n",
    "3 notified 1 10.0.0.2.5:17225 300 - - -\n", "3 notified 1 10.0.0.2:17225 300 00 - -\n",
    "3 notified 1 1.0.0.2:1 3 - "
    /* 33 bytes */ AA AA AA AA "61" " -\n",
    "3 asked 1 10.0.0.2:17225 300 - - -\n",
    "3 asked 1 2 0a0b0c0d-0000-0000-0000-00000000000 10.0.0.2:17225 300 - - -\n",
    "3 asked 1 2 0a0b0c0d-0000-0000-0000-0000000000011 10.0.0.2:17225 300 - - -\n",
    "3 asked 1 2 0a0b0c0d00000000000000000000000001 10.0.0.2:17225 300 - - -\n",
    "3 asked 1 2 0A0b0c0d-0000-0000-0000-000000000001 10.0.0.2:17225 300 - - -\n",
    "3 asked 1 2 0a0b0c0d-0000\n", "3 asked 1 2 0\n",
    "3 replied 1 10.0.0.2:17225 Mn 0 301 -\n", "3 replied 1 10.0.0.2:17225 Mp -0 301 -\n",
    "3 replied 1 10.0.0.2:17225 Mp 2147483648 301 -\n",
    "3 replied 1 10.0.0.2:17225 Mp -2147483649 301 -\n",
    "3 replied 1 10.0.0.2:17225 Mp - 301 -\n", "3 replied 1 10.0.0.2:17225 Mp 0 -\n",
    "3 confirmed 1\n", "3 confirmed 1 +5\n", "3 closed 1\n", "3 closed 1 Over\n",
    "3 closed 1 Done.\n", "line fault\n", "line fault \n", "line fault Count 1\n", "line\n",
};

/* The good ones are read, and no front of them is; the bad ones are strange. */
static void read_exactly(void)
{
    uint8_t bytes[8];
    for (size_t i = 0; i < sizeof good / sizeof *good; i++) {
        size_t length = strlen(good[i]);
        if (!CHECK(said_in(good[i], length, bytes, 8).form >= TRDP_SLOT_FORM_HANDLE))
            printf("    %s", good[i]);
        size_t front = 0;
        while (front < length
            && said_in(good[i], front, bytes, 8).form == TRDP_SLOT_FORM_STRANGE)
            front++;
        CHECK(front == length);
    }
    for (size_t i = 0; i < sizeof bad / sizeof *bad; i++)
        if (!CHECK(said_in(bad[i], strlen(bad[i]), bytes, 8).form == TRDP_SLOT_FORM_STRANGE))
            printf("    %s", bad[i]);
    CHECK(said_in("3 done\0\n", 8, bytes, 8).form == TRDP_SLOT_FORM_STRANGE);
    CHECK(said_in("4 done\n", 7, bytes, 8).form == TRDP_SLOT_FORM_OTHER_SLOT);
    CHECK(said_in("33 silent 1\n", 12, bytes, 8).form == TRDP_SLOT_FORM_OTHER_SLOT);
}

/* What is read has the values that the text has. */
static void read_values(void)
{
    uint8_t bytes[8];
    struct trdp_slot_said said = said_in(good[5], strlen(good[5]), bytes, 8);
    CHECK(said.value.state == TRDP_SLOT_VALID && said.value.counter == UINT32_MAX);
    CHECK(said.value.length == 2 && bytes[0] == 0x0a && bytes[1] == 0x0b);
    said = said_in(good[12], strlen(good[12]), bytes, 8);
    CHECK(said.told.kind == TRDP_SLOT_ASKED && said.told.handle == 1 && said.told.replier == 2);
    CHECK(said.told.session[0] == 10 && said.told.session[3] == 13 && said.told.session[15] == 1);
    CHECK(said.told.source.address == UINT32_MAX && said.told.source.port == 65535);
    CHECK(strcmp(said.told.source_uri, "") == 0 && strcmp(said.told.destination_uri, "car") == 0);
    said = said_in(good[15], strlen(good[15]), bytes, 8);
    CHECK(said.told.answer == TRDP_SLOT_ME && said.told.status == INT32_MIN);
    CHECK(said.told.source.address == 0x0a000002 && said.told.com_id == 301);
    said = said_in(good[20], strlen(good[20]), bytes, 8);
    CHECK(said.told.kind == TRDP_SLOT_CLOSED && said.told.reason == TRDP_SLOT_NOT_CONFIRMED);
}

/* Texts that chance has changed are read without harm; what is read keeps to its bounds. */
static void read_changed(void)
{
    uint32_t chance = 1;
    unsigned wild = 0;
    for (int round = 0; round < 20000; round++) {
        char text[128];
        uint8_t bytes[4];
        const char *from = good[(size_t)round % (sizeof good / sizeof *good)];
        size_t length = strlen(from);
        memcpy(text, from, length);
        for (int changes = 0; changes < 3; changes++) {
            chance = chance * 1664525 + 1013904223;
            size_t at = chance >> 8 & 127;
            if (at < length)
                text[at] = chance >> 24 & 1 ? (char)(chance >> 16 & 255)
                    : "0 -.:a\n"[chance >> 16 & 7];
        }
        struct trdp_slot_said said = said_in(text, length - (chance >> 30 == 0), bytes, 4);
        if (said.value.length > 64 || said.told.length > 64
            || memchr(said.told.source_uri, 0, sizeof said.told.source_uri) == NULL
            || strlen(trdp_slot_error_text(said.error)) == 0)
            wild++;
    }
    CHECK(wild == 0);
}

/* Addresses as text. */
static void addresses(void)
{
    char text[TRDP_SLOT_ADDRESS_TEXT];
    uint32_t address = 7;
    CHECK(trdp_slot_address("10.0.0.2", &address) && address == 0x0a000002);
    CHECK(strcmp(trdp_slot_address_text(address, text), "10.0.0.2") == 0);
    CHECK(strcmp(trdp_slot_address_text(UINT32_MAX, text), "255.255.255.255") == 0);
    CHECK(strcmp(trdp_slot_address_text(0, text), "0.0.0.0") == 0);
    CHECK(!trdp_slot_address("", &address) && !trdp_slot_address("10.0.0", &address));
    CHECK(!trdp_slot_address("10.0.0.2 ", &address) && !trdp_slot_address("10.0.0.256", &address));
    CHECK(!trdp_slot_address("010.0.0.2", &address) && address == 0x0a000002);
}

void test_texts(void)
{
    read_exactly();
    read_values();
    read_changed();
    addresses();
}
