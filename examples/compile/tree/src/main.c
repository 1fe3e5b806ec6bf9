include limits.h
int main
