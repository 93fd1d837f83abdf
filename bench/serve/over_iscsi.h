/* An iSCSI target, asked by libiscsi's synchronous calls: the target's name is the environment's TARGET, and the unit is
   its LUN 1. */
#include <iscsi/iscsi.h>
#include <iscsi/scsi-lowlevel.h>

enum { LUN = 1, TIMEOUT = 20 /* seconds */ };

/* Sends a command; its status, and its data-in in the session. So many bytes of that may come at most. */
static uint8_t command(struct session *s, const uint8_t *cdb, uint8_t cdb_length, uint32_t out, uint32_t most)
{
    int way = out ? SCSI_XFER_WRITE : most ? SCSI_XFER_READ : SCSI_XFER_NONE;
    struct iscsi_data data = { .size = out, .data = s->out };
    struct scsi_task *task = scsi_create_task(cdb_length, (unsigned char *)cdb, way, (int)(out ? out : most));
    if (!task)
        fail("no memory");
    if (most)
        scsi_task_add_data_in_buffer(task, (int)most, s->in);
    if (!iscsi_scsi_command_sync(s->context, LUN, task, out ? &data : NULL))
        fail("the target has ended the connection");
    s->in_length = most - (task->residual_status == SCSI_RESIDUAL_UNDERFLOW ? (uint32_t)task->residual : 0);
    uint8_t status = (uint8_t)task->status;
    scsi_free_scsi_task(task);
    return status;
}

/* Logs in, under a name of the session's own. */
static void log_in(struct session *s, const char *address)
{
    char name[64];
    snprintf(name, sizeof name, "iqn.2024-01.example:load%u", s->number);
    struct iscsi_context *context = s->context = iscsi_create_context(name);
    if (!context || !getenv("TARGET"))
        fail("no session");
    iscsi_set_targetname(context, getenv("TARGET"));
    iscsi_set_session_type(context, ISCSI_SESSION_NORMAL);
    iscsi_set_header_digest(context, ISCSI_HEADER_DIGEST_NONE);
    iscsi_set_immediate_data(context, ISCSI_IMMEDIATE_DATA_YES);
    iscsi_set_initial_r2t(context, ISCSI_INITIAL_R2T_NO);
    iscsi_set_noautoreconnect(context, 1);
    iscsi_set_timeout(context, TIMEOUT);
    if (iscsi_connect_sync(context, address) || iscsi_login_sync(context))
        fail(iscsi_get_error(context));
}

static void log_out(struct session *s)
{
    iscsi_logout_sync(s->context);
    iscsi_destroy_context(s->context);
}
