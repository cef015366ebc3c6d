/* Whether both sides answer the same. Both get the same inputs: those that are timed, and made-up ones, many of which
 * are refused. Every answer must be the same, with the next record and every element of lent memory. */
#ifndef COMPARE_H
#define COMPARE_H

/* Each compares one part of the header; a difference ends the program with status 1. */
void compare_numbers(void);
void compare_frames(void);
void compare_receiver(void);
void compare_reports(void);
void compare_trackers(void);
void compare_sent(void);
void compare_pieces(void);

#endif
