__logged int g[640];
int main(void) {
  int i;
  for (i = 0; i < 640; i = i + 16) g[i] = i + 1;
  for (i = 0; i < 640; i = i + 16) release(g[i]);
  return 0;
}
