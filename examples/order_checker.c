__private unsigned key[4];
__logged unsigned seen[64];
__shared unsigned box[2];
const unsigned price[4] = { 5, 7, 11, 13 };
unsigned total;
__untrusted void fetch(void);
__private void load_keys(void) {
  unsigned i;
  for (i = 0; i < 4; i = i + 1) key[i] = input();
}
__private unsigned tag(unsigned item, unsigned count) {
  return (key[item & 3] * count + item) & 255;
}
int order(unsigned item, unsigned count, unsigned number) {
  if (item > 3 || count == 0) return 1;
  if (seen[number & 63]) return 2;
  seen[number & 63] = count;
  total = total + price[item] * count;
  return 0;
}
void put(unsigned v) { release(v >> 8); release(v); }
int main(void) {
  unsigned n; int r;
  load_keys();
  for (n = 0; n < 2; n = n + 1) {
    fetch();
    r = order(box[0], box[1], n);
    release(r);
    if (r == 0) release(tag(box[0], box[1]));
  }
  check();
  put(total);
  return 0;
}
