/* What the loader asks of the board: to print a line, and to end. Here both are semihosting, for a debugger or qemu; a
 * board of your own has a serial port for the first, and starts the image or stops for the second. */
#ifndef BOARD_H
#define BOARD_H

int main(void);
void print(const char *text);
void end(int status) __attribute__((noreturn));

#endif
