/* Reads mails from an mbox file, for mailbox.c, and for mailbox_client.c and mailbox_client.cpp. */
#ifndef MAILS_H
#define MAILS_H

#include <stdbool.h>
#include <stddef.h>
#include <stdint.h>
#include <stdio.h>
#include <string.h>

enum { TEXTS = 3 };

/* Turns bytes into text that a store accepts: bes_to_utf8 or bec_to_utf8. */
typedef size_t mail_to_utf8(const char *text, size_t length, char *out, size_t room);

/* The fields of a mail that are stored. A header may have any length and contain any bytes; a text has only what a value can hold. */
typedef struct mail {
    char texts[TEXTS][256];
    bool has_text[TEXTS];
    int64_t when; /* seconds since 1970, or -1 */
} mail;

/* Stores a mail. Returns an error, or 0. */
typedef uint32_t mail_writer(const mail *it, void *with);

static const char *const headers[TEXTS][2] = {
    {"From: ", "MAIL:from"}, {"To: ", "MAIL:to"}, {"Subject: ", "MAIL:subject"}
};

/* Returns a mail without fields. */
static inline mail no_mail(void)
{
    mail it;
    memset(&it, 0, sizeof it);
    it.when = -1;
    return it;
}

/* Returns the text after the name of a header line, or NULL if the line has another name. */
static inline const char *after(const char *line, const char *name)
{
    size_t length = strlen(name);
    return strncmp(line, name, length) == 0 ? line + length : NULL;
}

/* Returns the seconds since 1970 for a date such as "Mon, 3 Mar 2025 09:12:00 +0000", or -1 if the text isn't a date. */
static inline int64_t seconds(const char *date)
{
    static const char months[] = "JanFebMarAprMayJunJulAugSepOctNovDec";
    const char *comma = strchr(date, ','), *found;
    char name[4] = "";
    int64_t year, month, days;
    int day, shown_year, hour, minute, second, zone;
    if (sscanf(comma ? comma + 1 : date, "%2d %3s %4d %2d:%2d:%2d %5d", &day, name, &shown_year, &hour, &minute, &second, &zone) != 7)
        return -1;
    found = strstr(months, name);
    if (!found || strlen(name) != 3)
        return -1;
    month = (found - months) / 3 - 2; /* counted from March, so that a leap day is the last day of its year */
    year = month < 0 ? shown_year - 1 : shown_year;
    month = month < 0 ? month + 12 : month;
    days = 365 * year + year / 4 - year / 100 + year / 400 + (153 * month + 2) / 5 + day - 719469;
    return ((days * 24 + hour) * 60 + minute - zone / 100 * 60 - zone % 100) * 60 + second;
}

/* Stores the contents of a header line. Only the first line with each name counts. */
static inline void read_header(mail *it, const char *line, mail_to_utf8 *to_utf8)
{
    const char *date = after(line, "Date: ");
    if (date && it->when < 0)
        it->when = seconds(date);
    for (size_t i = 0; i < TEXTS; i++) {
        const char *text = after(line, headers[i][0]);
        if (!text || it->has_text[i])
            continue;
        to_utf8(text, strcspn(text, "\r"), it->texts[i], sizeof it->texts[i]);
        it->has_text[i] = true;
    }
}

/* Reads a line without its newline, truncated to the array's size. A zero byte becomes a space. Returns whether there was a line. */
static inline bool read_line(FILE *file, char *line, size_t room)
{
    size_t length = 0;
    int c = getc(file);
    if (c == EOF)
        return false;
    for (; c != EOF && c != '\n'; c = getc(file))
        if (length + 1 < room)
            line[length++] = c == 0 ? ' ' : (char)c;
    line[length] = 0;
    return true;
}

/* Writes the mails up to the first that the writer refuses. Returns its error, and stores the number of mails in *mails. */
static inline uint32_t read_mails(FILE *file, mail_to_utf8 *to_utf8, mail_writer *writer, void *with, uint64_t *mails)
{
    char line[4096] = "";
    mail it = no_mail();
    bool in_head = false, has_mail = false, has_line = true;
    while (has_line) {
        has_line = read_line(file, line, sizeof line);
        bool begins = has_line && after(line, "From ");
        if (has_mail && (begins || !has_line)) {
            uint32_t error = writer(&it, with);
            if (error != 0)
                return error;
            ++*mails;
        }
        if (begins) {
            it = no_mail();
            has_mail = in_head = true;
        } else if (line[0] == 0 || line[0] == '\r') {
            in_head = false;
        } else if (in_head) {
            read_header(&it, line, to_utf8);
        }
    }
    return 0;
}

#endif
