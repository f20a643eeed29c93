# Mixed code of the whole subset that has a typed tree, of at most so many bytes:  awk -v most=BYTES -f mixed.awk
# Defined names, structs with arrays and pointers, globals, functions that call themselves, nested statements, long expressions, comments.
BEGIN {
  for (k = 0; k < 256; k++) {
    text = sprintf("#define N%04d %d // a defined name\nstruct s%03d { int n, a[3][4]; char *name; struct s%03d *next; };\nlong g%04d = N%04d;\n", k, k, k, k, k, k)
    printf "%s", text; used += length(text)
  }
  end = "int main(void) { printf(\"%ld\\n\", g0001); return 0; }\n"
  for (k = 0; ; k++) {
    n = k % 256
    text = sprintf("/* the %dth of its kind */\nlong f%06d(struct s%03d *p, unsigned char *c, int n) {\n", k, k, n)
    text = text sprintf("  long sum = N%04d, *q = &sum;\n  struct s%03d *own = malloc(sizeof(struct s%03d));\n", n, n, n)
    text = text "  for (int i = 0; i < n; i++) {\n    if (p->a[i % 3][i & 3] > 0 && c[i] != (unsigned char)\047x\047) sum += p->n * i + (long)c[i] << 2; else { sum -= ~i; continue; }\n"
    text = text "    while (*q > 1000000) { *q /= 2; if (!p->next) break; }\n    own->a[i % 3][1] = own->n + i;\n  }\n"
    text = text sprintf("  printf(\"%%s of %%ld\\n\" \"and more\", p->name, sum ? sum : (long)sizeof(struct s%03d) - 1);\n  free(own);\n", n)
    text = text sprintf("  return n <= 0 ? 0 : f%06d(p->next, c + 1, n - 1) + 0x%xl * (sum + n * (c[0] - -g%04d)) %% (3 | n ^ 5);\n}\n", k, k, n)
    if (k == 8190 || used + length(text) + length(end) > most) break
    printf "%s", text; used += length(text)
  }
  printf "%s", end
}
