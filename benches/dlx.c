/* A plain dancing-links program (Knuth, "Dancing links", 2000): lists all tilings of a rectangle by the twelve
   pentominoes. It is the yardstick for the speed of search: cc -O2 -o dlx dlx.c && time ./dlx 10 6
   A third argument leaves out a square of that side in the middle: ./dlx 8 8 2 */
#include <stdio.h>
#include <stdlib.h>

#define MAX_NODES 200000

static int left[MAX_NODES], right[MAX_NODES], up[MAX_NODES], down[MAX_NODES], column[MAX_NODES];
static int size[512];
static int nodes, columns;
static long long tilings, visited;
static int chosen[64];
static unsigned checksum;

static const int pentominoes[12][5][2] = {
    {{1, 0}, {2, 0}, {0, 1}, {1, 1}, {1, 2}}, /* F */
    {{0, 0}, {0, 1}, {0, 2}, {0, 3}, {0, 4}}, /* I */
    {{0, 0}, {0, 1}, {0, 2}, {0, 3}, {1, 3}}, /* L */
    {{1, 0}, {1, 1}, {0, 2}, {1, 2}, {0, 3}}, /* N */
    {{0, 0}, {1, 0}, {0, 1}, {1, 1}, {0, 2}}, /* P */
    {{0, 0}, {1, 0}, {2, 0}, {1, 1}, {1, 2}}, /* T */
    {{0, 0}, {2, 0}, {0, 1}, {1, 1}, {2, 1}}, /* U */
    {{0, 0}, {0, 1}, {0, 2}, {1, 2}, {2, 2}}, /* V */
    {{0, 0}, {0, 1}, {1, 1}, {1, 2}, {2, 2}}, /* W */
    {{1, 0}, {0, 1}, {1, 1}, {2, 1}, {1, 2}}, /* X */
    {{0, 0}, {0, 1}, {1, 1}, {0, 2}, {0, 3}}, /* Y, mirrored */
    {{0, 0}, {1, 0}, {1, 1}, {1, 2}, {2, 2}}, /* Z */
};

static void cover(int c) {
    left[right[c]] = left[c];
    right[left[c]] = right[c];
    for (int i = down[c]; i != c; i = down[i])
        for (int j = right[i]; j != i; j = right[j]) {
            up[down[j]] = up[j];
            down[up[j]] = down[j];
            size[column[j]]--;
        }
}

static void uncover(int c) {
    for (int i = up[c]; i != c; i = up[i])
        for (int j = left[i]; j != i; j = left[j]) {
            size[column[j]]++;
            up[down[j]] = j;
            down[up[j]] = j;
        }
    left[right[c]] = c;
    right[left[c]] = c;
}

static void search(int depth) {
    visited++;
    if (right[0] == 0) {
        tilings++;
        for (int k = 0; k < depth; k++) checksum = checksum * 31 + (unsigned)chosen[k];
        return;
    }
    int best = right[0];
    for (int c = right[0]; c != 0; c = right[c])
        if (size[c] < size[best]) best = c;
    cover(best);
    for (int i = down[best]; i != best; i = down[i]) {
        chosen[depth] = i;
        for (int j = right[i]; j != i; j = right[j]) cover(column[j]);
        search(depth + 1);
        for (int j = left[i]; j != i; j = left[j]) uncover(column[j]);
    }
    uncover(best);
}

static int compare(const void *a, const void *b) { return *(const int *)a - *(const int *)b; }

static void add_option(const int *items, int count) {
    int first = nodes;
    for (int k = 0; k < count; k++) {
        int c = items[k], n = nodes++;
        column[n] = c;
        up[n] = up[c];
        down[n] = c;
        down[up[c]] = n;
        up[c] = n;
        size[c]++;
        left[n] = k ? n - 1 : first + count - 1;
        right[n] = k + 1 < count ? n + 1 : first;
    }
}

int main(int argc, char **argv) {
    int width = argc > 1 ? atoi(argv[1]) : 10, height = argc > 2 ? atoi(argv[2]) : 6, hole = argc > 3 ? atoi(argv[3]) : 0;
    int hole_x = (width - hole) / 2, hole_y = (height - hole) / 2;
    columns = width * height + 12;
    for (int c = 0; c <= columns; c++) {
        left[c] = c ? c - 1 : columns;
        right[c] = c < columns ? c + 1 : 0;
        up[c] = down[c] = column[c] = c;
    }
    /* the cells of the hole have no options, so their columns leave the list of columns to cover */
    for (int y = hole_y; y < hole_y + hole; y++)
        for (int x = hole_x; x < hole_x + hole; x++) {
            int c = y * width + x + 1;
            left[right[c]] = left[c];
            right[left[c]] = right[c];
        }
    nodes = columns + 1;
    for (int p = 0; p < 12; p++) {
        int seen[8][5], count = 0;
        for (int t = 0; t < 8; t++) {
            int cells[5][2], lx = 99, ly = 99, code[5], known = 0;
            for (int k = 0; k < 5; k++) {
                int x = pentominoes[p][k][0], y = pentominoes[p][k][1], s;
                if (t & 4) x = -x;
                for (int r = 0; r < (t & 3); r++) { s = x; x = -y; y = s; }
                cells[k][0] = x;
                cells[k][1] = y;
                if (x < lx) lx = x;
                if (y < ly) ly = y;
            }
            for (int k = 0; k < 5; k++) code[k] = (cells[k][1] - ly) * 64 + cells[k][0] - lx;
            qsort(code, 5, sizeof(int), compare);
            for (int s = 0; s < count; s++) {
                int same = 1;
                for (int k = 0; k < 5; k++) same &= seen[s][k] == code[k];
                known |= same;
            }
            if (known) continue;
            for (int k = 0; k < 5; k++) seen[count][k] = code[k];
            count++;
            for (int y = 0; y < height; y++)
                for (int x = 0; x < width; x++) {
                    int items[6], fits = 1;
                    items[0] = width * height + 1 + p;
                    for (int k = 0; k < 5; k++) {
                        int cx = code[k] % 64 + x, cy = code[k] / 64 + y;
                        int in_hole = cx >= hole_x && cx < hole_x + hole && cy >= hole_y && cy < hole_y + hole;
                        if (cx >= width || cy >= height || in_hole) fits = 0;
                        else items[k + 1] = cy * width + cx + 1;
                    }
                    if (fits) add_option(items, 6);
                }
        }
    }
    search(0);
    printf("%d by %d: %lld tilings, %lld nodes, checksum %u\n", height, width, tilings, visited, checksum);
    return 0;
}
