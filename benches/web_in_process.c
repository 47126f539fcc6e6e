/* Times two ways of the library that the package for browsers and node has too (web_speed.mjs), in memory and in turn:

       cut     fontcut_subset with FONTCUT_CHECKED into a room that is kept, of the lean kind
       join    fontcut_join of lean cuts into that room

   Words: the font, a file with a line FIRST-LAST in hexadecimal digits for each range of wanted codes, the cuts, the
   milliseconds that each way is given in all, and the least number of its calls. What is printed is said in
   in_memory.h. */
#include "in_memory.h"

enum { MOST_FILES = 100 };

static fontcut_bytes files[MOST_FILES];
static size_t file_count;

static size_t call_cut(void)
{
    return cut_into_room(FONTCUT_LEAN, FONTCUT_CHECKED);
}

static size_t call_join(void)
{
    fontcut_answer answer = fontcut_join(FONTCUT_LEAN, files, file_count, room, room_length);
    return answer.status == FONTCUT_DONE ? (size_t)answer.size : 0;
}

static way ways[] = {
    {.name = "cut", .call = call_cut, .parts = 1},
    {.name = "join", .call = call_join, .parts = 1},
};

int main(int count, char **words)
{
    if (count < 6 || count - 5 > MOST_FILES)
        return 1;
    read_font(words[1]);
    read_ranges(words[2]);
    for (; file_count < (size_t)count - 5; file_count++)
        files[file_count].at = read_file(words[3 + file_count], &files[file_count].length);
    get_room(2 * font_length + MORE);
    time_ways(ways, sizeof ways / sizeof ways[0], words[count - 2], words[count - 1]);
    return 0;
}
