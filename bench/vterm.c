// Reads standard input into the screen layer of libvterm, and prints the page as vtcat does.
#include <stdio.h>
#include <stdlib.h>
#include <unistd.h>
#include <vterm.h>

static char buffer[65536];

static void put_code(uint32_t code) {
  char bytes[6];
  int count = 0;
  if (code < 0x80) {
    bytes[count++] = code;
  } else if (code < 0x800) {
    bytes[count++] = 0xC0 | code >> 6;
    bytes[count++] = 0x80 | (code & 0x3F);
  } else if (code < 0x10000) {
    bytes[count++] = 0xE0 | code >> 12;
    bytes[count++] = 0x80 | (code >> 6 & 0x3F);
    bytes[count++] = 0x80 | (code & 0x3F);
  } else {
    bytes[count++] = 0xF0 | code >> 18;
    bytes[count++] = 0x80 | (code >> 12 & 0x3F);
    bytes[count++] = 0x80 | (code >> 6 & 0x3F);
    bytes[count++] = 0x80 | (code & 0x3F);
  }
  fwrite(bytes, 1, count, stdout);
}

int main(int argc, char **argv) {
  int rows = argc > 2 ? atoi(argv[1]) : 24;
  int cols = argc > 2 ? atoi(argv[2]) : 80;
  VTerm *vt = vterm_new(rows, cols);
  vterm_set_utf8(vt, 1);
  VTermScreen *screen = vterm_obtain_screen(vt);
  vterm_screen_reset(screen, 1);
  for (;;) {
    ssize_t count = read(0, buffer, sizeof buffer);
    if (count <= 0) break;
    vterm_input_write(vt, buffer, count);
    vterm_screen_flush_damage(screen);
  }
  for (int row = 0; row < rows; row++) {
    putchar('|');
    for (int col = 0; col < cols; col++) {
      VTermScreenCell cell;
      VTermPos pos = {row, col};
      vterm_screen_get_cell(screen, pos, &cell);
      if (cell.chars[0] == (uint32_t)-1) continue;
      if (cell.chars[0] == 0) putchar(' ');
      for (int i = 0; i < VTERM_MAX_CHARS_PER_CELL && cell.chars[i]; i++) put_code(cell.chars[i]);
    }
    puts("|");
  }
  return 0;
}
