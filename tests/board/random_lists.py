"""Random lists of events of random.cfg, of all calls but those that spin: what spins can do nothing else on a board."""
TASKS, OBJECTS = ("A", "B", "C", "D", "E", "G", "H", "TSK_SELF"), {"sem": "S", "flg": "F", "dtq": "Q", "mpf": "M", "cyc": "X", "alm": "L", "spn": "K"}
# The calls by what they are given.
CALLS = {
    "t": "act_tsk iact_tsk can_act ter_tsk get_pri wup_tsk iwup_tsk can_wup rel_wai irel_wai sus_tsk rsm_tsk",
    "tp": "mact_tsk imact_tsk mig_tsk", "tr": "chg_pri", "n": "tslp_tsk dly_tsk", "r": "rot_rdq irot_rdq", "rp": "mrot_rdq imrot_rdq",
    "": "ext_tsk slp_tsk get_tid iget_tid get_pid iget_pid loc_cpu iloc_cpu unl_cpu iunl_cpu dis_dsp ena_dsp sns_ctx sns_loc sns_dsp sns_dpn",
    "o": "sig_sem isig_sem wai_sem pol_sem rcv_dtq prcv_dtq get_mpf pget_mpf sta_cyc stp_cyc stp_alm istp_alm try_spn itry_spn unl_spn iunl_spn",
    "on": "twai_sem trcv_dtq tget_mpf sta_alm ista_alm", "of": "set_flg iset_flg clr_flg", "ofm": "wai_flg pol_flg", "ofmn": "twai_flg",
    "od": "snd_dtq psnd_dtq ipsnd_dtq fsnd_dtq ifsnd_dtq", "odn": "tsnd_dtq", "ob": "rel_mpf", "op": "msta_cyc", "onp": "msta_alm imsta_alm",
}
GIVEN = [(name, kinds) for kinds, names in CALLS.items() for name in names.split()]


def argument(source, name, kind):
    """One argument. Now and then it is one that is refused."""
    if kind == "o":
        return OBJECTS[name[-3:]]
    if kind == "t":
        return source.choice(TASKS)
    few = {"p": "1 2 3 1 2 3 0 4", "r": "7 8 8 8 9 10 12 17", "n": "0 1 1 2 3 -1", "f": "1 2 3 0x10", "m": "TWF_ORW TWF_ANDW", "d": "-1 0 7 100", "b": "0 1 0 1 2"}
    return source.choice(few[kind].split())


def event(source):
    processor = source.randint(1, 3)
    kind = source.random()
    if kind < 0.2:
        return f"P{processor} tick"
    if kind < 0.35:
        return f"P{processor} ret_hdr"
    name, kinds = source.choice(GIVEN)
    return f"P{processor} {name}({', '.join(argument(source, name, kind) for kind in kinds)})"


def events(source):
    return "".join(event(source) + "\n" for _ in range(source.randint(15, 50)))
