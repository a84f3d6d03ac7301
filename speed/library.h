// Read before all else, gives the calls in plain C the library's names: a program that is written for the library runs over them then, and a
// declaration in plain.h that differs from recorder.h's is an error.
#define plain_make recorder_make
#define plain_command recorder_command
#define plain_step recorder_step
#define plain_media_error recorder_media_error
#define plain_power_cut recorder_power_cut
#define plain_comreset recorder_comreset
#define plain_hardware_reset recorder_hardware_reset
#define plain_software_reset recorder_software_reset
#define plain_grade recorder_grade
#define plain_show recorder_show
#define plain_send recorder_send
#define plain_sense recorder_sense
#define plain_read recorder_read
#define plain_descriptor recorder_descriptor
#define plain_scsi_read recorder_scsi_read
#define plain_scsi_descriptor recorder_scsi_descriptor
#define plain_list recorder_list
#define plain_scsi_list recorder_scsi_list
#define plain_to_scsi recorder_to_scsi
#define plain_to_ata recorder_to_ata
#define plain_next recorder_next
#define plain_next_request recorder_next_request
#define plain_open recorder_open
#define plain_next_difference recorder_next_difference
#define plain_span recorder_span
