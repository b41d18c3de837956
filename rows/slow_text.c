/* Writes a text that is made to be slow to read, of about so many bytes:  slow_text KIND BYTES

   Names that collide, in tables that hash by `FoldHasher`, whose first state is always the same. Behind the first 16 bytes
   of a name of 32 its state is known; where the next 8 bytes are that state, the product is 0, whatever the last 8 are. So
   names are sought whose state is spelt like a name: one in some 70,000 is. All names that begin with these 24 bytes
   collide in all 64 bits. In the table of a file's objects the kind comes before the name, in that of a list's values the
   attribute.

   A name that lies far off. A table of declared names is keyed by a digest of all of them, so none can be chosen for a key
   that is known. But the key can be worked out behind the choice, and names that are looked up don't change it. So the
   table is as full as it gets, its last name is changed until some name lies in a group as far as possible behind the one
   where its search begins, and every task looks that name up. */
#include <stdint.h>
#include <stdio.h>
#include <stdlib.h>
#include <string.h>

enum { EVENT = 5 }; /* as the reader numbers the kinds */

static const char letters[] = "abcdefghijklmnopqrstuvwxyzABCDEFGHIJKLMNOPQRSTUVWXYZ_0123456789";

static const uint64_t initial = 0x243f6a8885a308d3, multiplier = 0x9e3779b97f4a7c15;

static uint64_t folded(uint64_t a, uint64_t b)
{
    unsigned __int128 product = (unsigned __int128)a * b;
    return (uint64_t)product ^ (uint64_t)(product >> 64);
}

static uint64_t word_at(const char *bytes)
{
    uint64_t word;
    memcpy(&word, bytes, 8);
    return word;
}

/* What the hasher does with a byte, and with up to 8 bytes of at least 4. */
static uint64_t fed_byte(uint64_t state, uint64_t byte)
{
    return folded(state ^ (byte | byte << 8 | byte << 16), multiplier ^ 2);
}

static uint64_t fed_word(uint64_t state, const char *word)
{
    uint32_t first, last;
    size_t length = strlen(word);
    memcpy(&first, word, 4);
    memcpy(&last, word + length - 4, 4);
    return folded(state ^ (first | (uint64_t)last << 32), multiplier ^ (2 * length));
}

/* Sets the first 24 bytes of colliding names that are fed in that state. */
static void collide(uint64_t state, char *name)
{
    for (uint64_t turn = 0;; turn++) {
        uint64_t number = turn, spelt;
        int i;
        for (i = 0; i < 16; i++) {
            name[i] = letters[number % 26];
            number = number / 26 + (i > 5);
        }
        spelt = folded(word_at(name) ^ (state + 32), word_at(name + 8) ^ multiplier);
        memcpy(name + 16, &spelt, 8);
        for (i = 16; i < 24 && name[i] && strchr(letters, name[i]); i++)
            ;
        if (i == 24)
            return;
    }
}

/* SipHash-1-3 with both keys 0, on what is written in turn. */
struct sip {
    uint64_t v0, v1, v2, v3, tail, length;
};

static uint64_t turned(uint64_t x, int by) { return x << by | x >> (64 - by); }

static void sip_round(struct sip *s)
{
    s->v0 += s->v1, s->v2 += s->v3;
    s->v1 = turned(s->v1, 13) ^ s->v0, s->v3 = turned(s->v3, 16) ^ s->v2;
    s->v0 = turned(s->v0, 32);
    s->v2 += s->v1, s->v0 += s->v3;
    s->v1 = turned(s->v1, 17) ^ s->v2, s->v3 = turned(s->v3, 21) ^ s->v0;
    s->v2 = turned(s->v2, 32);
}

static void sip_word(struct sip *s, uint64_t word)
{
    s->v3 ^= word;
    sip_round(s);
    s->v0 ^= word;
}

static void sip_write(struct sip *s, const void *bytes, size_t count)
{
    for (size_t i = 0; i < count; i++) {
        s->tail |= (uint64_t)((const unsigned char *)bytes)[i] << 8 * (s->length % 8);
        if (++s->length % 8 == 0) {
            sip_word(s, s->tail);
            s->tail = 0;
        }
    }
}

static uint32_t sip_folded(struct sip s)
{
    uint64_t hash;
    sip_word(&s, s.length << 56 | s.tail);
    s.v2 ^= 0xff;
    sip_round(&s), sip_round(&s), sip_round(&s);
    hash = s.v0 ^ s.v1 ^ s.v2 ^ s.v3;
    return (uint32_t)(hash ^ hash >> 32);
}

/* SHA-256, on what is written in turn. Its constants are the first bits behind the point of the roots of primes. */
struct sha {
    uint32_t state[8];
    unsigned char block[64];
    uint64_t length;
};

static uint32_t sha_constants[64];

static uint32_t root_bits(int prime, int is_cube)
{
    unsigned __int128 low = 0, high = (unsigned __int128)8 << 32, root;
    while (high - low > 1) {
        root = (low + high) / 2;
        if (is_cube ? root * root * root <= (unsigned __int128)prime << 96 : root * root <= (unsigned __int128)prime << 64)
            low = root;
        else
            high = root;
    }
    return (uint32_t)low;
}

static void sha_begin(struct sha *s)
{
    int found = 0;
    s->length = 0;
    for (int prime = 2; found < 64; prime++) {
        int divisor = 2;
        while (prime % divisor)
            divisor++;
        if (divisor < prime)
            continue;
        if (found < 8)
            s->state[found] = root_bits(prime, 0);
        sha_constants[found++] = root_bits(prime, 1);
    }
}

static uint32_t spun(uint32_t x, int by) { return x >> by | x << (32 - by); }

static void sha_block(struct sha *s)
{
    uint32_t w[64], h[8];
    memcpy(h, s->state, sizeof h);
    for (int i = 0; i < 16; i++)
        w[i] = (uint32_t)s->block[4 * i] << 24 | s->block[4 * i + 1] << 16 | s->block[4 * i + 2] << 8 | s->block[4 * i + 3];
    for (int i = 16; i < 64; i++) {
        uint32_t a = w[i - 15], b = w[i - 2];
        w[i] = w[i - 16] + (spun(a, 7) ^ spun(a, 18) ^ a >> 3) + w[i - 7] + (spun(b, 17) ^ spun(b, 19) ^ b >> 10);
    }
    for (int i = 0; i < 64; i++) {
        uint32_t e = h[4], a = h[0];
        uint32_t one = h[7] + (spun(e, 6) ^ spun(e, 11) ^ spun(e, 25)) + ((e & h[5]) ^ (~e & h[6])) + sha_constants[i] + w[i];
        uint32_t two = (spun(a, 2) ^ spun(a, 13) ^ spun(a, 22)) + ((a & h[1]) ^ (a & h[2]) ^ (h[1] & h[2]));
        memmove(h + 1, h, 7 * sizeof *h);
        h[4] += one;
        h[0] = one + two;
    }
    for (int i = 0; i < 8; i++)
        s->state[i] += h[i];
}

static void sha_write(struct sha *s, const void *bytes, size_t count)
{
    for (size_t i = 0; i < count; i++) {
        s->block[s->length++ % 64] = ((const unsigned char *)bytes)[i];
        if (s->length % 64 == 0)
            sha_block(s);
    }
}

static void sha_end(struct sha s, unsigned char *digest)
{
    uint64_t bits = 8 * s.length;
    sha_write(&s, "\x80", 1);
    while (s.length % 64 != 56)
        sha_write(&s, "", 1);
    for (int i = 56; i >= 0; i -= 8) {
        unsigned char byte = bits >> i;
        sha_write(&s, &byte, 1);
    }
    for (int i = 0; i < 32; i++)
        digest[i] = s.state[i / 4] >> (24 - i % 4 * 8);
}

/* Declared names of 4 letters, and one of one letter behind them. */
enum { LOAD = 9, LANES = 12, TRIES = 400 };

static void spell(char *name, long number)
{
    for (int i = 3; i >= 0; i--) {
        name[i] = letters[number % 26];
        number /= 26;
    }
    name[4] = 0;
}

/* The number of the name that lies farthest off in a table with that key, and how many groups are searched for it. */
static long farthest(char (*names)[5], long count, const unsigned char *digest, int *far)
{
    struct sip first = {0x736f6d6570736575, 0x646f72616e646f6d, 0x6c7967656e657261, 0x7465646279746573, 0, 0};
    long groups = count / LOAD, found = 0;
    unsigned char *filled = calloc(groups, 1);
    sip_write(&first, digest, 32);
    for (long i = 0; i < count; i++) {
        struct sip hasher = first;
        int searched = 1;
        long group;
        sip_write(&hasher, names[i], strlen(names[i]));
        sip_write(&hasher, "\xff", 1);
        group = sip_folded(hasher) & (groups - 1);
        for (; filled[group] == LANES; searched++)
            group = (group + 1) & (groups - 1);
        filled[group]++;
        if (searched > *far) {
            *far = searched;
            found = i;
        }
    }
    free(filled);
    return found;
}

static void put_name(struct sha *s, const char *name)
{
    unsigned char length = strlen(name);
    sha_write(s, &length, 1);
    sha_write(s, name, length);
}

/* Names for a table that is full, the last of them that of the mode at the file's end; answers the farthest. */
static long sought(char (*names)[5], long count)
{
    struct sha begun;
    long best = 0, last = count - 2, chosen = last;
    int far = 0;
    sha_begin(&begun);
    for (long i = 0; i < last; i++) {
        spell(names[i], i);
        put_name(&begun, names[i]);
    }
    strcpy(names[count - 1], "M");
    for (long i = 0; i < TRIES; i++) {
        struct sha whole = begun;
        unsigned char digest[32];
        int farther = far;
        long found;
        spell(names[last], last + i);
        put_name(&whole, names[last]);
        put_name(&whole, names[count - 1]);
        sha_end(whole, digest);
        found = farthest(names, count, digest, &farther);
        if (farther > far) {
            far = farther;
            best = found;
            chosen = last + i;
        }
    }
    spell(names[last], chosen);
    return best;
}

static const char *numbered(char *name, long number)
{
    for (int i = 31; i >= 24; i--) {
        name[i] = letters[number % 63];
        number /= 63;
    }
    name[32] = 0;
    return name;
}

static void put_head(void) { printf("OIL_VERSION=\"2.5\";CPU c{"); }

static void put_end(void)
{
    printf("OS o{STATUS=EXTENDED;STARTUPHOOK=FALSE;ERRORHOOK=FALSE;SHUTDOWNHOOK=FALSE;PRETASKHOOK=FALSE;"
           "POSTTASKHOOK=FALSE;};APPMODE M{};TASK A{PRIORITY=1;SCHEDULE=FULL;ACTIVATION=1;"
           "AUTOSTART=TRUE{APPMODE=M;};};};\n");
}

int main(int count, char **words)
{
    char name[33] = "";
    const char *kind = count > 2 ? words[1] : "";
    long bytes = count > 2 ? atol(words[2]) : 0;
    memset(name, 'a', 24);
    if (!strcmp(kind, "colliding_objects")) {
        collide(fed_byte(initial, EVENT), name);
        kind = "objects";
    } else if (!strcmp(kind, "colliding_tables")) {
        collide(initial, name);
        kind = "objects";
    } else if (!strcmp(kind, "colliding_lists")) {
        collide(fed_byte(fed_byte(fed_word(initial, "RESOURCE"), 0xff), 0), name);
        kind = "lists";
    }
    if (!strcmp(kind, "objects")) {
        put_head();
        for (long i = 0; i < bytes / 55; i++)
            printf("EVENT %s{MASK=AUTO;};\n", numbered(name, i));
        put_end();
    } else if (!strcmp(kind, "lists")) {
        put_head();
        printf("TASK B{PRIORITY=1;SCHEDULE=FULL;ACTIVATION=1;AUTOSTART=FALSE;\n");
        for (long i = 0; i < bytes / 43; i++)
            printf("RESOURCE=%s;\n", numbered(name, i));
        printf("};");
        put_end();
    } else if (!strcmp(kind, "far_name")) {
        long names_count = LOAD, written = 0, far;
        char(*names)[5], task[5];
        while (2 * names_count * 15 <= bytes * 3 / 5)
            names_count *= 2;
        names = calloc(names_count, sizeof *names);
        far = sought(names, names_count);
        put_head();
        for (long i = 0; i < names_count - 1; i++)
            written += printf("APPMODE %s{};\n", names[i]);
        for (long i = 0; written < bytes; i++) {
            spell(task, i);
            written += printf("TASK %s{PRIORITY=1;SCHEDULE=FULL;ACTIVATION=1;AUTOSTART=TRUE{APPMODE=%s;};};\n", task, names[far]);
        }
        put_end();
        free(names);
    } else if (!strcmp(kind, "braces")) {
        put_head();
        for (long i = 0; i < bytes; i++)
            putchar('{');
    } else if (!strcmp(kind, "blocks")) {
        put_head();
        printf("TASK A");
        for (long i = 0; i < bytes / 17; i++)
            printf("{AUTOSTART=TRUE \n");
    } else if (!strcmp(kind, "line")) {
        put_head();
        put_end();
        for (long i = 0; i < bytes; i++)
            putchar(' ');
        putchar('x');
    } else if (!strcmp(kind, "comments")) {
        for (long i = 0; i < bytes / 5; i++)
            printf("/**/ ");
        printf("/*");
    } else if (!strcmp(kind, "names")) {
        put_head();
        for (long i = 0; i < bytes / 2; i++)
            printf("a ");
    } else if (!strcmp(kind, "labels")) {
        printf(".task A\n");
        for (long i = 0; i < bytes / 11; i++)
            printf("L%08ld:\n", i);
        printf("JMP L00000000\n");
    } else if (!strcmp(kind, "programs")) {
        for (long i = 0; i < bytes / 22; i++)
            printf(".task T%08ld\nTERM\n", i);
    } else if (!strcmp(kind, "jumps")) {
        for (long i = 0; i < bytes / 18000; i++) {
            printf(".task T%06ld\n", i);
            for (long j = 0; j < 1000; j++)
                printf("L%05ld: JMP L%05ld\n", j, 999 - j);
        }
    } else if (!strcmp(kind, "events")) {
        printf(".task A\nWAIT E");
        for (long i = 0; i < bytes / 7; i++)
            printf("+E%05ld", i % 100000);
        printf("\nTERM\n");
    } else if (!strcmp(kind, "arrivals")) {
        for (long i = 0; i < bytes / 4; i++)
            printf("1 I\n");
    } else if (!strcmp(kind, "digits")) {
        for (long i = 0; i < bytes; i++)
            putchar('7');
        printf(" I\n");
    } else {
        fprintf(stderr, "slow_text KIND BYTES\n");
        return 2;
    }
    return 0;
}
