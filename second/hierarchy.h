/* The keywords of the hierarchy: every name in square brackets in section 3a of source document 000, carried or not. */
#ifndef SECOND_HIERARCHY_H
#define SECOND_HIERARCHY_H

#include "words.h"

/* In small letters with underscores, in the order in which the three trees first name them. */
static const struct name hierarchy_names[] = {
    /* .ibs: the header */
    NAME("ibis_ver"), NAME("comment_char"), NAME("file_name"), NAME("file_rev"), NAME("date"), NAME("source"),
    NAME("notes"), NAME("disclaimer"), NAME("copyright"),
    /* .ibs: a component */
    NAME("component"), NAME("manufacturer"), NAME("package"), NAME("pin"), NAME("package_model"),
    NAME("alternate_package_models"), NAME("end_alternate_package_models"), NAME("pin_mapping"), NAME("diff_pin"),
    NAME("series_pin_mapping"), NAME("series_switch_groups"), NAME("node_declarations"),
    NAME("end_node_declarations"), NAME("circuit_call"), NAME("end_circuit_call"), NAME("begin_emi_component"),
    NAME("pin_emi"), NAME("pin_domain_emi"), NAME("end_emi_component"),
    /* .ibs: selectors and models */
    NAME("model_selector"), NAME("model"), NAME("model_spec"), NAME("receiver_thresholds"), NAME("add_submodel"),
    NAME("driver_schedule"), NAME("temperature_range"), NAME("voltage_range"), NAME("pullup_reference"),
    NAME("pulldown_reference"), NAME("power_clamp_reference"), NAME("gnd_clamp_reference"),
    NAME("external_reference"), NAME("ttgnd"), NAME("ttpower"), NAME("pulldown"), NAME("pullup"), NAME("gnd_clamp"),
    NAME("power_clamp"), NAME("isso_pu"), NAME("isso_pd"), NAME("rgnd"), NAME("rpower"), NAME("rac"), NAME("cac"),
    NAME("on"), NAME("off"), NAME("r_series"), NAME("l_series"), NAME("rl_series"), NAME("c_series"),
    NAME("lc_series"), NAME("rc_series"), NAME("series_current"), NAME("series_mosfet"), NAME("ramp"),
    NAME("rising_waveform"), NAME("composite_current"), NAME("falling_waveform"), NAME("test_data"),
    NAME("rising_waveform_near"), NAME("falling_waveform_near"), NAME("rising_waveform_far"),
    NAME("falling_waveform_far"), NAME("diff_rising_waveform_near"), NAME("diff_falling_waveform_near"),
    NAME("diff_rising_waveform_far"), NAME("diff_falling_waveform_far"), NAME("test_load"), NAME("external_model"),
    NAME("end_external_model"), NAME("algorithmic_model"), NAME("end_algorithmic_model"), NAME("begin_emi_model"),
    NAME("end_emi_model"),
    /* .ibs: submodels and circuits */
    NAME("submodel"), NAME("submodel_spec"), NAME("power_pulse_table"), NAME("gnd_pulse_table"),
    NAME("external_circuit"), NAME("end_external_circuit"),
    /* .ibs and .pkg: package models */
    NAME("define_package_model"), NAME("oem"), NAME("description"), NAME("number_of_sections"),
    NAME("number_of_pins"), NAME("pin_numbers"), NAME("model_data"), NAME("resistance_matrix"),
    NAME("inductance_matrix"), NAME("bandwidth"), NAME("row"), NAME("capacitance_matrix"), NAME("end_model_data"),
    NAME("end_package_model"), NAME("end"),
    /* .ebd: a board */
    NAME("begin_board_description"), NAME("pin_list"), NAME("path_description"), NAME("reference_designator_map"),
    NAME("end_board_description"),
};
enum { HIERARCHY_NAMES = sizeof hierarchy_names / sizeof *hierarchy_names };
_Static_assert(HIERARCHY_NAMES == 109, "section 3a names 109 different keywords");

enum { LONGEST_KEYWORD = sizeof "end_alternate_package_models" - 1 };

#endif
