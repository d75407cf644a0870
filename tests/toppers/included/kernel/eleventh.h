extern int before;
CLASS(TCL_2) {
  CRE_SEM(ELEVENTH, {TA_NULL, 0, 11});
}
extern int behind;
