/* Whether the plain twin and the best one answer as the library does and leave the same bytes: checks of all lengths at
 * even and odd addresses; frames of all lengths that are right, cut off or too long for the room; and each of them with
 * a bit turned in any one byte, so that in turn every block is wrong. */
#ifndef TWINS_AGREE_H
#define TWINS_AGREE_H
int twins_agree(void);
#endif
