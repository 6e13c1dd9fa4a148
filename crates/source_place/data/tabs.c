int main(void){
	int a[2];
		a[0]=1;  // a tab	inside
	return a[1];
}