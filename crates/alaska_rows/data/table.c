#define BUCKETS 64
#define EACH 60
struct node { struct node *next; char *key; unsigned long len; int owner; };
struct table { mtx_t lock; struct node *bucket[BUCKETS]; long count; };
struct table *tab;
unsigned long hash(char *s, unsigned long n) {
  unsigned long h = 5381;
  for (unsigned long i = 0; i < n; i++) h = h * 33 + s[i];
  return h % BUCKETS; }
int same(char *a, char *b, unsigned long n) {
  for (unsigned long i = 0; i < n; i++) if (a[i] != b[i]) return 0;
  return 1; }
unsigned long build(char *to, int owner, int i) {
  to[0] = 'a' + owner; to[1] = '0' + i / 10; to[2] = '0' + i % 10;
  unsigned long n = 3;
  for (int k = 0; k < i % 40; k++) { to[n] = 'x'; n++; }
  to[n] = 0;
  return n; }
void add(char *s, unsigned long n, int owner) {
  struct node *e = malloc(sizeof(struct node));
  e->key = malloc(n + 1);
  memcpy(e->key, s, n + 1);
  e->len = n; e->owner = owner;
  unsigned long h = hash(s, n);
  mtx_lock(&tab->lock);
  e->next = tab->bucket[h]; tab->bucket[h] = e; tab->count++;
  mtx_unlock(&tab->lock); }
void drop(char *s, unsigned long n) {
  unsigned long h = hash(s, n);
  mtx_lock(&tab->lock);
  struct node *back = NULL;
  struct node *e = tab->bucket[h];
  while (e != NULL && !(e->len == n && same(e->key, s, n))) { back = e; e = e->next; }
  if (e != NULL) {
    if (back != NULL) back->next = e->next; else tab->bucket[h] = e->next;
    tab->count--; free(e->key); free(e); }
  mtx_unlock(&tab->lock); }
int has(char *s, unsigned long n) {
  struct node *e = tab->bucket[hash(s, n)];
  while (e != NULL) { if (e->len == n && same(e->key, s, n)) return 1; e = e->next; }
  return 0; }
int work(void *v) {
  int *id = v;
  char key[64];
  for (int i = 0; i < EACH; i++) { unsigned long n = build(key, *id, i); add(key, n, *id); }
  for (int i = 0; i < EACH; i++) if (i % 20 != 0) { unsigned long n = build(key, *id, i); drop(key, n); }
  return 0; }
int main(void) {
  tab = malloc(sizeof(struct table));
  mtx_init(&tab->lock, mtx_plain);
  for (int b = 0; b < BUCKETS; b++) tab->bucket[b] = NULL;
  tab->count = 0;
  thrd_t t[3]; int id[3]; char key[64];
  for (int k = 0; k < 3; k++) { id[k] = k; thrd_create(&t[k], work, &id[k]); }
  for (int k = 0; k < 3; k++) thrd_join(t[k], NULL);
  for (int o = 0; o < 3; o++) for (int i = 0; i < EACH; i++) {
    unsigned long n = build(key, o, i);
    if (has(key, n)) printf("%s\n", key); }
  printf("%ld left\n", tab->count);
  return 0; }
