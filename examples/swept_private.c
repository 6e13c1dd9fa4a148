__private int a[2560];
__private void fill(void) {
  int i;
  for (i = 0; i < 2560; i = i + 16) a[i] = i + 1;
}
__private int sum(void) {
  int i;
  int s;
  s = 0;
  for (i = 0; i < 2560; i = i + 16) s = s + a[i];
  return s;
}
int main(void) {
  int s;
  fill();
  s = sum();
  release(s >> 8);
  release(s);
  return 0;
}
