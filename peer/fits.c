/* fits.c: will it fit? The answer that FS, or GM with a legal picture, would give.
 *
 * Nothing of what FS and GM themselves ask is used here: names, free portions and empty entries are looked for anew, in the image, the
 * links and the directory as they stand. So it says something that both give the same answer wherever memory is sound. */
#include "peer.h"

static bool lengths_right(size_t session, size_t links, size_t directory)
{
    return session == IMAGE && links >= 1 && links <= MOST_PORTIONS && directory >= ENTRY && directory <= ENTRY * MOST_ENTRIES
        && directory % ENTRY == 0;
}

/* "1 to 8 bytes, codes 32 to 126 without `*` and quote" */
static bool legal_name(const uint8_t *name, size_t length)
{
    if (length < 1 || length > 8)
        return false;
    for (size_t i = 0; i < length; i++)
        if (name[i] < 32 || name[i] > 126 || name[i] == '*' || name[i] == '"')
            return false;
    return true;
}

/* "A picture's size is 1 to 32,768 ... A form's size may be anything" */
static bool size_right(uint8_t kind, uint64_t size)
{
    return kind == FORM || (size >= 1 && size <= MOST_PICTURE);
}

static uint8_t capital(uint8_t byte)
{
    return byte >= 'a' && byte <= 'z' ? (uint8_t)(byte - 'a' + 'A') : byte;
}

/* "whose length byte and that many name bytes are the name's; the fill is not looked at". The name is legal, so no length above 8 is its. */
static bool has_name(const uint8_t *entry, const uint8_t *name, size_t length)
{
    if (entry[1] != length)
        return false;
    for (size_t i = 0; i < length; i++)
        if (entry[2 + i] != capital(name[i]))
            return false;
    return true;
}

static bool some_of_kind(const uint8_t *directory, size_t length, uint8_t kind)
{
    for (size_t at = 0; at < length; at += ENTRY)
        if (directory[at] == kind)
            return true;
    return false;
}

static bool in_use(const uint8_t *directory, size_t length, uint8_t kind, const uint8_t *name, size_t name_len)
{
    for (size_t at = 0; at < length; at += ENTRY)
        if (directory[at] == kind && has_name(directory + at, name, name_len))
            return true;
    return false;
}

static size_t links_free(const uint16_t *links, size_t length)
{
    size_t number = 0;

    for (size_t i = 0; i < length; i++)
        number += links[i] == FREE;
    return number;
}

/* In the order of the paper: "1, 7 (a wrong kind too), 8 to 10, 19 and 23". A form being recorded would be in use too, but is 9 before. */
uint8_t peer_fits(const uint8_t *session, size_t session_len, const uint16_t *links, size_t links_len, const uint8_t *directory,
                  size_t directory_len, uint8_t kind, const uint8_t *name, size_t name_len, uint64_t size)
{
    if (!lengths_right(session_len, links_len, directory_len))
        return BAD_LENGTH;
    if ((kind != FORM && kind != PICTURE) || !legal_name(name, name_len) || !size_right(kind, size))
        return OUTSIDE_LIMITS;
    if (session[11] != 0 || session[12] != 0)  /* owed */
        return LABELS_OWED;
    if (some_of_kind(directory, directory_len, RECORDING))
        return NO_PLACE;
    if (in_use(directory, directory_len, kind, name, name_len))
        return NAME_IN_USE;
    if (links_free(links, links_len) < (kind == FORM ? 1 : (size + PORTION - 1) / PORTION))
        return TOO_FEW_PORTIONS;
    if (!some_of_kind(directory, directory_len, EMPTY))
        return NO_EMPTY_ENTRY;
    return TAKEN;
}
