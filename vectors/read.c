/* Reads vectors as read.py does, with no library: each case is a line, and the fields below have no escapes.
   cc -o read read.c && ./read C9.json */
#include <stdio.h>
#include <string.h>
enum { ID, PLACE, OWN, PEER, PHASE, MAX, OCTETS, VERDICT, CHECK, NAK, FIELDS };
static const char *names[FIELDS] = {"\"id\":", "\"place\":", "\"own\":", "\"peer\":", "\"phase\":", "\"max\":", "\"octets\":", "\"verdict\":", "\"check\":", "\"nak\":"};
static char line[400000], it[FIELDS][200000]; /* the longest octets have 131,072 digits */
int main(int count, char **paths) {
    for (int i = 1; i < count; i++) {
        FILE *file = fopen(paths[i], "r");
        while (file && fgets(line, sizeof line, file)) {
            if (line[0] != '{' || line[1] != '"') continue;
            for (int k = 0; k < FIELDS; k++) { /* a value is a text, a number, or null, which is read as no text */
                char *at = strstr(line, names[k]);
                it[k][0] = 0;
                if (at) sscanf(at + strlen(names[k]), at[strlen(names[k])] == '"' ? "\"%199999[^\"]" : "%199999[0-9]", it[k]);
            }
            char place[64] = "hub";
            if (it[PLACE][0] != 'h') snprintf(place, sizeof place, "%.6s:%.12s", it[PLACE], it[OWN]);
            if (it[PLACE][0] == 'd') snprintf(place + strlen(place), 16, ":%.12s", it[PEER][0] ? it[PEER] : "-");
            /* Put your own judge in the place of this. */
            printf("%s\t%s %s %s %s\t%s", it[ID], place, it[PHASE], it[MAX], it[OCTETS], it[VERDICT]);
            printf("%s%s%s%s\n", it[CHECK][0] ? " " : "", it[CHECK], it[NAK][0] ? " " : "", it[NAK]);
        }
    }
    return 0;
}
