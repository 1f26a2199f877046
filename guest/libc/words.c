/*
 * wordexp: the words of a text as a shell has them, with quotes, variables, the home directory and patterns of paths. There is no shell,
 * so commands are refused, and so is arithmetic; of what braces may say there is the name of a variable alone.
 */
#define _GNU_SOURCE
#include <ctype.h>
#include <glob.h>
#include <stdbool.h>
#include <stdlib.h>
#include <string.h>
#include <wordexp.h>

#define MOST_OF_NAME 256 /* of a variable */

struct text {
    char *bytes;
    size_t length, capacity;
};

/* What is being expanded, and the word that is being made: as it is, and as a pattern with quoted signs escaped. */
struct expansion {
    const char *at;
    int flags;
    struct text word, pattern;
    bool is_word, has_sign;
    char **words;
    size_t count;
};

static int add(struct text *text, char byte)
{
    if (text->length + 1 >= text->capacity) {
        size_t capacity = text->capacity * 2 + 64;
        char *larger = realloc(text->bytes, capacity);
        if (larger == NULL)
            return WRDE_NOSPACE;
        text->bytes = larger;
        text->capacity = capacity;
    }
    text->bytes[text->length++] = byte;
    text->bytes[text->length] = '\0';
    return 0;
}

static int add_letter(struct expansion *it, char letter, bool is_quoted)
{
    bool is_sign = strchr("*?[\\", letter) != NULL;
    it->is_word = true;
    if (is_sign && !is_quoted && letter != '\\')
        it->has_sign = true;
    if (is_sign && (is_quoted || letter == '\\') && add(&it->pattern, '\\') != 0)
        return WRDE_NOSPACE;
    return add(&it->pattern, letter) != 0 ? WRDE_NOSPACE : add(&it->word, letter);
}

static int add_word(struct expansion *it, const char *word)
{
    char **larger = reallocarray(it->words, it->count + 1, sizeof *larger);
    if (larger == NULL)
        return WRDE_NOSPACE;
    it->words = larger;
    larger[it->count] = strdup(word);
    return larger[it->count] == NULL ? WRDE_NOSPACE : (++it->count, 0);
}

/* The paths that fit the word's pattern, or the word itself where there is none. */
static int add_paths(struct expansion *it)
{
    glob_t found;
    int error = glob(it->pattern.bytes, 0, NULL, &found);
    if (error == GLOB_NOSPACE)
        return WRDE_NOSPACE;
    if (error != 0)
        return add_word(it, it->word.bytes);
    for (size_t at = 0; at < found.gl_pathc && error == 0; ++at)
        error = add_word(it, found.gl_pathv[at]);
    globfree(&found);
    return error;
}

static int end_word(struct expansion *it)
{
    int error = 0;
    if (it->is_word && it->word.bytes == NULL)
        error = add_word(it, "");
    else if (it->is_word)
        error = it->has_sign ? add_paths(it) : add_word(it, it->word.bytes);
    it->is_word = it->has_sign = false;
    it->word.length = it->pattern.length = 0;
    if (it->word.bytes != NULL)
        it->word.bytes[0] = it->pattern.bytes[0] = '\0';
    return error;
}

/* A value is a part of the word; unless it is quoted, its spaces end words. */
static int add_value(struct expansion *it, const char *value, bool is_quoted)
{
    int error = 0;
    for (; *value != '\0' && error == 0; ++value)
        error = !is_quoted && strchr(" \t\n", *value) != NULL ? end_word(it) : add_letter(it, *value, is_quoted);
    return error;
}

/* What a dollar sign stands for: `at` is behind it. */
static int add_variable(struct expansion *it, bool is_quoted)
{
    char name[MOST_OF_NAME];
    size_t length = 0;
    bool has_braces = *it->at == '{';
    if (*it->at == '(')
        return it->at[1] == '(' ? WRDE_SYNTAX : WRDE_CMDSUB;
    it->at += has_braces;
    while ((isalpha((unsigned char)*it->at) || *it->at == '_' || (length > 0 && isdigit((unsigned char)*it->at))) && length < sizeof name - 1)
        name[length++] = *it->at++;
    name[length] = '\0';
    if (has_braces && (length == 0 || *it->at++ != '}'))
        return WRDE_SYNTAX;
    if (length == 0)
        return add_letter(it, '$', true);
    const char *value = getenv(name);
    if (value == NULL && (it->flags & WRDE_UNDEF))
        return WRDE_BADVAL;
    return value == NULL ? 0 : add_value(it, value, is_quoted);
}

static int add_single_quotes(struct expansion *it)
{
    int error = 0;
    it->is_word = true;
    for (; *it->at != '\'' && error == 0; ++it->at)
        error = *it->at == '\0' ? WRDE_SYNTAX : add_letter(it, *it->at, true);
    it->at += error == 0;
    return error;
}

static int add_quoted(struct expansion *it)
{
    char letter = *it->at++;
    if (letter == '\0')
        return WRDE_SYNTAX;
    if (letter == '`')
        return WRDE_CMDSUB;
    if (letter == '$')
        return add_variable(it, true);
    if (letter == '\\' && *it->at != '\0' && strchr("$`\"\\\n", *it->at) != NULL) {
        letter = *it->at++;
        return letter == '\n' ? 0 : add_letter(it, letter, true);
    }
    return add_letter(it, letter, true);
}

static int add_double_quotes(struct expansion *it)
{
    int error = 0;
    it->is_word = true;
    while (*it->at != '"' && error == 0)
        error = add_quoted(it);
    it->at += error == 0;
    return error;
}

static int add_escaped(struct expansion *it)
{
    if (*it->at == '\0')
        return WRDE_SYNTAX;
    char letter = *it->at++;
    return letter == '\n' ? 0 : add_letter(it, letter, true);
}

/* The home directory, where the word is `~` or begins with `~/`. */
static int add_home(struct expansion *it)
{
    const char *home = getenv("HOME");
    bool is_home = !it->is_word && home != NULL && (*it->at == '\0' || strchr("/ \t", *it->at) != NULL);
    return is_home ? add_value(it, home, true) : add_letter(it, '~', false);
}

static int add_part(struct expansion *it)
{
    char letter = *it->at++;
    switch (letter) {
    case ' ': case '\t': return end_word(it);
    case '\'': return add_single_quotes(it);
    case '"': return add_double_quotes(it);
    case '\\': return add_escaped(it);
    case '$': return add_variable(it, false);
    case '~': return add_home(it);
    case '`': return WRDE_CMDSUB;
    case '\n': case '|': case '&': case ';': case '<': case '>': case '(': case ')': case '{': case '}': return WRDE_BADCHAR;
    default: return add_letter(it, letter, false);
    }
}

static void free_words(char **words, size_t count)
{
    while (count > 0)
        free(words[--count]);
    free(words);
}

/* Puts the words behind those that are there: `first` are before them, of which the offsets are NULL. */
static int hand_over(struct expansion *it, wordexp_t *result, size_t first, size_t before)
{
    char **all = reallocarray(before > 0 || (it->flags & WRDE_APPEND) ? result->we_wordv : NULL, first + before + it->count + 1, sizeof *all);
    if (all == NULL)
        return WRDE_NOSPACE;
    if (!(it->flags & WRDE_APPEND))
        memset(all, 0, first * sizeof *all);
    if (it->count > 0)
        memcpy(all + first + before, it->words, it->count * sizeof *all);
    all[first + before + it->count] = NULL;
    result->we_wordv = all;
    result->we_wordc = before + it->count;
    free(it->words);
    return 0;
}

int wordexp(const char *restrict text, wordexp_t *restrict result, int flags)
{
    struct expansion it = {.at = text, .flags = flags};
    int error = 0;
    if (flags & WRDE_REUSE)
        wordfree(result);
    if (!(flags & WRDE_APPEND))
        *result = (wordexp_t){.we_offs = flags & WRDE_DOOFFS ? result->we_offs : 0};
    while (*it.at != '\0' && error == 0)
        error = add_part(&it);
    if (error == 0)
        error = end_word(&it);
    free(it.word.bytes);
    free(it.pattern.bytes);
    if (error == 0)
        error = hand_over(&it, result, flags & WRDE_DOOFFS ? result->we_offs : 0, result->we_wordc);
    if (error != 0)
        free_words(it.words, it.count);
    return error;
}

void wordfree(wordexp_t *result)
{
    if (result->we_wordv == NULL)
        return;
    for (size_t at = 0; at < result->we_wordc; ++at)
        free(result->we_wordv[result->we_offs + at]);
    free(result->we_wordv);
    *result = (wordexp_t){.we_offs = result->we_offs};
}
