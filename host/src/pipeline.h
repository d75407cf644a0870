/* --junit and --tap: what a pipeline reads. */
#ifndef PIPELINE_H
#define PIPELINE_H
void pipeline_report(char **words); /* does not return where it is asked for */
#endif
