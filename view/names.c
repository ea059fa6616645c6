/*
 * Names for roles. A sentence that says a role by its name must still be read in one way only, so
 * no name holds a mark or a word with which a sentence goes on after a role.
 */
#include "names.h"

#include "characters.h"

#include <string.h>

/* Whether a character goes on with a word: a letter or a digit, and all that is no ASCII. */
static int in_word(char character)
{
    unsigned char byte = (unsigned char)character;

    return byte >= 0x80 || (byte >= '0' && byte <= '9') || (byte >= 'A' && byte <= 'Z')
        || (byte >= 'a' && byte <= 'z');
}

/* Whether a name has a word. */
static int has_word(const char *name, const char *word)
{
    size_t length = strlen(word);
    const char *at = name;

    while ((at = strstr(at, word)) != NULL) {
        if ((at == name || !in_word(at[-1])) && !in_word(at[length])) {
            return 1;
        }
        at += length;
    }
    return 0;
}

/* Whether a name has a word that belongs to sentences. */
static int has_sentence_word(const char *name)
{
    static const char *const words[] = {"enable", "disable", "enabled", "disabled", "priority"};
    size_t i;

    for (i = 0; i < sizeof words / sizeof words[0]; i++) {
        if (has_word(name, words[i])) {
            return 1;
        }
    }
    return 0;
}

/* Whether a name would be read as a role's number: '3', or 'role 3'. */
static int is_number(const char *name)
{
    if (strncmp(name, "role ", 5) == 0) {
        name += 5;
    }
    return name[strspn(name, "0123456789")] == 0;
}

/* Whether a character may not stand in a name. */
static int is_barred(uint32_t number)
{
    return !printable(number) || (number < 0x80 && strchr(",=:;#", (int)number) != NULL);
}

/*
 * Takes characters as a name. Blanks at its ends go, and several within it count as one, those too
 * at which no line is broken: they look the same.
 */
static const char *take_characters(const char *text, size_t length, char *name)
{
    size_t at, taken, characters = 0, used = 0, blanks = 0;
    uint32_t number;

    for (at = 0; at < length; at += taken) {
        taken = character_at(text + at, &number);
        if (taken == 0 || is_barred(number)) {
            return "a name has printable characters, and none of , = : ; #";
        }
        if (number == ' ' || number == 0xA0) {
            blanks = used > 0;
            continue;
        }
        characters += blanks + 1;
        if (characters > NAME_CHARACTERS) {
            return "a name has at most 40 characters";
        }
        memcpy(name + used, " ", blanks);
        memcpy(name + used + blanks, text + at, taken);
        used += blanks + taken;
        blanks = 0;
    }
    name[used] = 0;
    return NULL;
}

/* Takes a name of so many bytes, which a 0 byte may end no sooner. */
const char *clean_name(const char *text, size_t length, char *name)
{
    const char *why = take_characters(text, length, name);

    if (why != NULL) {
        return why;
    }
    if (name[0] == 0) {
        return "the name is empty";
    }
    if (is_number(name)) {
        return "a name is no number";
    }
    return has_sentence_word(name)
        ? "a name does not have the words enable, disable, enabled, disabled or priority"
        : NULL;
}

/* What a role is called; NULL when it has no name. */
const char *name_of_role(const struct names *names, unsigned role)
{
    size_t i;

    for (i = 0; i < names->count; i++) {
        if (names->list[i].role == role) {
            return names->list[i].text;
        }
    }
    return NULL;
}

/* The role of a name; 0 when no role has it. */
int role_of_name(const struct names *names, const char *name, unsigned *role)
{
    size_t i;

    for (i = 0; i < names->count; i++) {
        if (strcmp(names->list[i].text, name) == 0) {
            *role = names->list[i].role;
            return 1;
        }
    }
    return 0;
}

/* Gives a name to a role below ROLES_MOST. */
const char *add_name(struct names *names, unsigned role, const char *name)
{
    unsigned other;

    if (name_of_role(names, role) != NULL) {
        return "the role has a name already";
    }
    if (role_of_name(names, name, &other)) {
        return "another role has this name already";
    }
    names->list[names->count].role = role;
    strcpy(names->list[names->count].text, name);
    names->count++;
    return NULL;
}
