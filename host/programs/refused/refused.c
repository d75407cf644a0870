/* Calls that are refused. Which of them are findings depends on what the program does with the code, and on --refused. HOW says which are made. */
#include "kernel.h"
#include "kernel_cfg.h"
#include "t_syslog.h"
#include "t_stdlib.h"
#include <stdlib.h>
#include <string.h>
#define SVC_PERROR(expression) svc_perror(__FILE__, __LINE__, #expression, (expression))

static ER kept;

static void svc_perror(const char *file, int_t line, const char *expression, ER ercd)
{
    if (ercd < 0)
        t_perror(LOG_ERROR, file, line, expression, ercd);
}

static ER returned(void)
{
    return wai_sem(99);
}

static ER_UINT checked(void)
{
    ER_UINT count = can_act(99);
    if (count < 0)
        return 0;
    return count + 1;
}

void try_task(intptr_t exinf)
{
    const char *how = getenv("HOW");
    if (!strcmp(how, "id")) wai_sem(99);
    if (!strcmp(how, "void")) (void)sig_sem(99);
    if (!strcmp(how, "can")) can_wup(99);
    if (!strcmp(how, "parameter")) chg_pri(TSK_SELF, 99);
    if (!strcmp(how, "use")) unl_spn(LOCK);
    if (!strcmp(how, "object")) rel_wai(OTHER);
    if (!strcmp(how, "logged object")) SVC_PERROR(rel_wai(OTHER));
    if (!strcmp(how, "logged well")) SVC_PERROR(sig_sem(SEMAPHORE));
    if (!strcmp(how, "logged timeout")) SVC_PERROR(pol_sem(SEMAPHORE));
    if (!strcmp(how, "logged expected")) SVC_PERROR(rel_wai(OTHER)); /* fmphost: E_OBJ */
    if (!strcmp(how, "compared") && wai_sem(99) == E_ID) kept++;
    if (!strcmp(how, "negative") && wai_sem(99) < 0) kept++;
    if (!strcmp(how, "kept")) kept = wai_sem(99);
    if (!strcmp(how, "returned")) returned();
    if (!strcmp(how, "counted")) kept += (ER)checked();
    if (!strcmp(how, "asserted")) assert(wai_sem(99) != E_OK);
    if (!strcmp(how, "expected")) wai_sem(99); // fmphost: E_ID, since there is no such semaphore
    if (!strcmp(how, "expected otherwise")) wai_sem(99); // fmphost: E_CTX
    if (!strcmp(how, "locked")) {
        loc_cpu();
        dly_tsk(1);
        unl_cpu();
    }
}

void other_task(intptr_t exinf)
{
}
