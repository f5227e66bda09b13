// The plain C program that `bench/answer` measures `as4 answer STAMP NONCE` against: a message file of one payload
// comes in, and the message file of its receipt goes out. It does by hand, for the form of the shipped example, what
// `as4` does for each message: the input is read into one buffer, `memmem` finds the ends of the parts and the texts of
// the envelope, and what is written is taken from where it stands. Nothing is copied, the payload least of all, and
// little is refused.
#define _GNU_SOURCE
#include <stdio.h>
#include <stdlib.h>
#include <string.h>
#include <time.h>
#include <unistd.h>

#define HEAD "Content-Type: multipart/related; type=\"application/soap+xml\"; boundary=\"as4-0000000000000000\"; start=\"<root-0000000000000000@as4>\"\r\n\r\n"
#define DELIMITER "--as4-0000000000000000"

static const char ENVELOPE_START[] = "<S:Envelope xmlns:S=\"http://www.w3.org/2003/05/soap-envelope\" xmlns:eb=\"http://docs.oasis-open.org/ebxml-msg/ebms/v3.0/ns/core/200704/\"><S:Header><eb:Messaging S:mustUnderstand=\"true\">";
static const char ENVELOPE_END[] = "</eb:Messaging></S:Header><S:Body></S:Body></S:Envelope>";

struct piece {
    const char *at;
    size_t length;
};

// The length and the place of a piece, as `%.*s` takes them.
#define TEXT(piece) (int)(piece).length, (piece).at

static void stop(int status, const char *why) {
    fprintf(stderr, "%s\n", why);
    exit(status);
}

// All of the input, in a buffer that doubles.
static struct piece read_all(void) {
    size_t room = 65536, length = 0;
    char *bytes = malloc(room);
    if (!bytes) stop(5, "no memory");
    for (;;) {
        if (length == room) {
            room *= 2;
            bytes = realloc(bytes, room);
            if (!bytes) stop(5, "no memory");
        }
        ssize_t got = read(0, bytes + length, room - length);
        if (got < 0) stop(3, "read fault");
        if (got == 0) break;
        length += got;
    }
    return (struct piece){bytes, length};
}

// What stands between the next place of `start` and the next one of `end` behind it. `rest` then begins behind `end`.
static struct piece between(struct piece *rest, const char *start, const char *end) {
    char *from = memmem(rest->at, rest->length, start, strlen(start));
    if (!from) stop(1, "another form");
    from += strlen(start);
    size_t left = rest->at + rest->length - from;
    char *to = memmem(from, left, end, strlen(end));
    if (!to) stop(1, "another form");
    const char *behind = to + strlen(end);
    rest->length = rest->at + rest->length - behind;
    rest->at = behind;
    return (struct piece){from, to - from};
}

int main(int count, char **words) {
    if (count != 4 || strcmp(words[1], "answer") != 0) stop(64, "bad words");
    unsigned long long stamp = strtoull(words[2], NULL, 10);
    unsigned __int128 nonce = 0;
    for (const char *digit = words[3]; *digit; digit++) nonce = nonce * 10 + (*digit - '0');

    struct piece file = read_all();
    size_t head = strlen(HEAD);
    if (file.length < head || memcmp(file.at, HEAD, head) != 0) stop(1, "another form");

    struct piece body = {file.at + head, file.length - head};
    struct piece root = between(&body, DELIMITER "\r\n", "\r\n" DELIMITER);
    struct piece part = between(&body, "\r\n", "\r\n" DELIMITER "--\r\n");
    if (body.length != 0) stop(1, "another form");

    struct piece stamped = between(&root, "<eb:Timestamp>", "</eb:Timestamp>");
    struct piece id = between(&root, "<eb:MessageId>", "</eb:MessageId>");
    struct piece from = between(&root, "<eb:PartyId>", "</eb:PartyId>");
    struct piece from_role = between(&root, "<eb:Role>", "</eb:Role>");
    struct piece to = between(&root, "<eb:PartyId>", "</eb:PartyId>");
    struct piece to_role = between(&root, "<eb:Role>", "</eb:Role>");
    struct piece service = between(&root, "<eb:Service>", "</eb:Service>");
    struct piece action = between(&root, "<eb:Action>", "</eb:Action>");
    struct piece conversation = between(&root, "<eb:ConversationId>", "</eb:ConversationId>");
    struct piece href = between(&root, "href=\"cid:", "\"");

    struct piece cid = between(&part, "Content-ID: <", ">\r\n");
    between(&part, "Content-Type: ", "\r\n");
    between(&part, "Content-Transfer-Encoding: binary", "\r\n\r\n");
    if (href.length != cid.length || memcmp(href.at, cid.at, cid.length) != 0) stop(1, "another form");

    time_t seconds = stamp / 1000;
    struct tm date;
    gmtime_r(&seconds, &date);
    unsigned long long high = nonce >> 64, low = nonce;
    printf("Content-Type: application/soap+xml; charset=UTF-8\r\n\r\n%s<eb:SignalMessage><eb:MessageInfo>", ENVELOPE_START);
    printf("<eb:Timestamp>%04d-%02d-%02dT%02d:%02d:%02d.%03dZ</eb:Timestamp>", date.tm_year + 1900, date.tm_mon + 1,
           date.tm_mday, date.tm_hour, date.tm_min, date.tm_sec, (int)(stamp % 1000));
    printf("<eb:MessageId>s.%08llx-%04llx-%04llx-%04llx-%012llx@as4</eb:MessageId>", high >> 32, high >> 16 & 0xffff,
           high & 0xffff, low >> 48, low & 0xffffffffffff);
    printf("<eb:RefToMessageId>%.*s</eb:RefToMessageId></eb:MessageInfo><eb:Receipt>", TEXT(id));
    printf("<eb:UserMessage><eb:MessageInfo><eb:Timestamp>%.*s</eb:Timestamp><eb:MessageId>%.*s</eb:MessageId></eb:MessageInfo>", TEXT(stamped), TEXT(id));
    printf("<eb:PartyInfo><eb:From><eb:PartyId>%.*s</eb:PartyId><eb:Role>%.*s</eb:Role></eb:From>", TEXT(from), TEXT(from_role));
    printf("<eb:To><eb:PartyId>%.*s</eb:PartyId><eb:Role>%.*s</eb:Role></eb:To></eb:PartyInfo>", TEXT(to), TEXT(to_role));
    printf("<eb:CollaborationInfo><eb:Service>%.*s</eb:Service><eb:Action>%.*s</eb:Action>", TEXT(service), TEXT(action));
    printf("<eb:ConversationId>%.*s</eb:ConversationId></eb:CollaborationInfo>", TEXT(conversation));
    printf("<eb:PayloadInfo><eb:PartInfo href=\"cid:%.*s\"></eb:PartInfo></eb:PayloadInfo></eb:UserMessage>", TEXT(href));
    printf("</eb:Receipt></eb:SignalMessage>%s", ENVELOPE_END);
    if (fflush(stdout) != 0) stop(4, "write fault");
    return 0;
}
