int main(void){ put(2+3*4); return 7; }
