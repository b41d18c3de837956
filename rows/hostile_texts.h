/* A part of `hostile.c`: texts that are damaged. */

static int damaged_file = -1;
static char *text;
static size_t text_length, text_at;

static size_t lines_of(const char *bytes, size_t length)
{
    size_t lines = 0;
    for (size_t i = 0; i < length; i++)
        lines += bytes[i] == '\n';
    return lines;
}

/* Whether the line is that of a fault, of which the greatest number and place are given. `last` gets the number. */
static int is_fault(const char *begin, const char *middle, long greatest, size_t place, long *last)
{
    size_t length = strlen(begin);
    char *rest;
    if (strncmp(tried->err, begin, length) || !isdigit((unsigned char)tried->err[length]))
        return 0;
    *last = strtol(tried->err + length, &rest, 10);
    if (*last < 1 || *last > greatest || strncmp(rest, middle, strlen(middle)))
        return 0;
    rest += strlen(middle);
    if (place == (size_t)-1)
        return rest[0] > ' ' && strlen(rest) <= 33 && strchr(rest, '\n') == rest + strlen(rest) - 1;
    if (!isdigit((unsigned char)*rest))
        return 0;
    return strtoul(rest, &rest, 10) <= place && strcmp(rest, "\n") == 0;
}

/* Whether a trace stands on standard output: lines that begin with a tick and a space. */
static int is_trace(void)
{
    const char *at = tried->out, *end = at + tried->out_length;
    if (tried->status != 0 || tried->err_length != 0)
        return 0;
    while (at < end) {
        const char *digits = at;
        while (at < end && isdigit((unsigned char)*at))
            at++;
        if (at == digits || at == end || *at != ' ' || !(at = memchr(at, '\n', end - at)))
            return 0;
        at++;
    }
    return 1;
}

static int names_file(const char *line)
{
    const char *end = strchr(line, ':');
    return end && end - line > 4 && strstr(end, ": ")
           && (!strncmp(end - 4, ".oil", 4) || !strncmp(end - 4, ".asm", 4) || !strncmp(end - 4, ".irq", 4));
}

/* Whether the lines behind the first are those of an explanation: the second names a file, the others begin with a space
   or a number. The first line alone is kept. */
static int is_explained(void)
{
    char *first = strchr(tried->err, '\n'), *line = first;
    if (!first || tried->err[tried->err_length - 1] != '\n' || !line[1])
        return 0;
    for (; line[1]; line = strchr(line + 1, '\n'))
        if (line == first ? !names_file(line + 1) : line[1] != ' ' && !isdigit((unsigned char)line[1]))
            return 0;
    first[1] = 0;
    return 1;
}

/* Whether the answer to a text of that many bytes is one of those that the damaged file allows. */
static int is_answer(char kind, size_t length, int is_cut_short)
{
    long number = 0;
    if (getenv("HARM_EXPLAINED") && tried->status == 1 && !is_usual() && !is_explained())
        return 0;
    if (kind == 'o' && is_cut_short)
        return tried->status == 1 && tried->out_length == 0 && is_fault("oil: fault ", " at ", 2, length, &number);
    if (is_trace() || is_usual())
        return 1;
    if (tried->status != 1 || tried->out_length != 0)
        return 0;
    if (kind == 'o' && is_fault("oil: fault ", " at ", 6, length, &number))
        return 1;
    if (kind == 'a' && is_fault("asm: fault ", " at ", 6, length, &number))
        return 1;
    if (kind == 'i')
        return is_fault("irq: fault ", " at line ", 5, lines_of(text, length) + 1, &number);
    return is_fault("gen: fault ", " in ", 10, -1, &number)
           || (kind == 'o' && (is_fault("irq: fault ", " at line ", 5, 65537, &number) || says("boot: fault 1\n")));
}

/* The bytes to which one is changed in a text of that kind, how many they are, and each which of them is tried at a
   place. By HARM_VALUES they are all bytes, or the signs that mean something there; else four. */
static const char *values_of(char kind, int *count, int *skip)
{
    static char all[256];
    static const char oil[] = "{}=;/*\"0A_ \n", asm_text[] = "\0\t\n\r ,+:;.0A8_r\x7f\xff";
    const char *which = getenv("HARM_VALUES");
    *skip = which ? 1 : 2;
    if (which && !strcmp(which, "all")) {
        for (int i = 0; i < 256; i++)
            all[i] = (char)i;
        *count = 256;
        return all;
    }
    *count = !which ? 4 : kind == 'o' ? (int)sizeof oil - 1 : (int)sizeof asm_text - 1;
    if (which)
        return kind == 'o' ? oil : asm_text;
    return kind == 'o' ? "}9\x80\"" : kind == 'a' ? ":7\x80\n" : "9 \n\x80";
}

/* Tries each damage of the text; returns 1 in a child. */
static int damages(void)
{
    const char *file = getenv("HARM_FILE"), *dot = strrchr(file, '.');
    char kind = dot ? dot[1] : 'o';
    int count, skip;
    const char *values = values_of(kind, &count, &skip);
    size_t step = strtoul(getenv("HARM_STEP"), 0, 10);
    size_t whole = text_length, last = whole;
    while (last > 0 && text[last - 1] != ';')
        last--;
    int is_oil_read = strncmp(usual->err, "oil: ", 5) != 0;
    for (size_t at = 0; at < whole; at += step) {
        text_length = at;
        if (in_child(tried))
            return 1;
        judge(is_answer(kind, at, is_oil_read && at < last), "cut at %ld", at, 0);
        text_length = whole;
        char was = text[at];
        for (int i = at % skip; i < count; i += skip) {
            if (values[i] == was)
                continue;
            text[at] = values[i];
            if (in_child(tried))
                return 1;
            judge(is_answer(kind, whole, 0), "byte %ld is %ld", at, (unsigned char)values[i]);
        }
        text[at] = was;
    }
    return 0;
}

/* Takes the whole file in before its first byte is read. */
static void take_in(int file)
{
    long size = lseek(file, 0, SEEK_END);
    text = mmap(0, size + 1, PROT_READ | PROT_WRITE, MAP_PRIVATE | MAP_ANONYMOUS, -1, 0);
    for (long got; text_length < (size_t)size; text_length += got)
        if ((got = pread(file, text + text_length, size - text_length, text_length)) <= 0)
            _exit(99);
    damages();
}
