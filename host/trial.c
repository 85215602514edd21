#define _DEFAULT_SOURCE /* sigaction, sigsetjmp */
#include "trial.h"

#include <setjmp.h>
#include <signal.h>
#include <string.h>
#include <unistd.h>

/* A room for each input run, and the output's behind them. */
#define OUT_ROOM CASE_RUNS
static struct lent_room rooms[CASE_RUNS + 1];

/* Where a stopped call goes on, and what stopped it. */
static sigjmp_buf behind_call;
static volatile sig_atomic_t in_call;
static volatile sig_atomic_t stopped_by;
static void *volatile stopped_at;

static void on_stop(int number, siginfo_t *info, void *context)
{
	static const char lost[] = "compare: the host itself was stopped\n";

	(void)context;
	if (!in_call) {
		if (write(STDERR_FILENO, lost, sizeof lost - 1) < 0)
			_exit(3);
		_exit(2);
	}
	stopped_by = number;
	stopped_at = info->si_addr;
	siglongjmp(behind_call, 1);
}

/* The handler has a stack of its own, so that a call that used up the stack is
 * reported too, and leaves its signal open, so that no trial has to save the
 * mask. */
static bool catch_stops(void)
{
	static const int stops[] = { SIGSEGV, SIGBUS, SIGILL, SIGFPE };
	static uint8_t stack[65536];
	stack_t own = { .ss_sp = stack, .ss_size = sizeof stack };
	struct sigaction action = {
		.sa_sigaction = on_stop,
		.sa_flags = SA_SIGINFO | SA_NODEFER | SA_ONSTACK,
	};

	if (sigaltstack(&own, NULL) != 0)
		return false;
	for (size_t i = 0; i < sizeof stops / sizeof stops[0]; i++)
		if (sigaction(stops[i], &action, NULL) != 0)
			return false;
	return true;
}

bool trial_open(void)
{
	for (size_t i = 0; i <= OUT_ROOM; i++)
		if (!lent_open(&rooms[i]))
			return false;
	return catch_stops();
}

/* Lends every run of the case. */
static void lend(const struct call_case *one, enum lent_side side,
	struct call_args *args)
{
	args->numbers = one->numbers;
	for (size_t i = 0; i < one->runs_len; i++) {
		const struct case_run *run = &one->runs[i];

		args->runs[i].at = lent_place(&rooms[i], side, run->bytes, run->len);
		args->runs[i].len = run->len;
	}
	args->out.at = lent_place(&rooms[OUT_ROOM], side, one->before.bytes,
		one->before.len);
	args->out.len = one->before.len;
}

/* Makes the call. False where a signal stopped it. */
static bool make(const struct call *call, const struct call_args *args,
	qg_reply *reply)
{
	if (sigsetjmp(behind_call, 0) != 0) {
		in_call = 0;
		return false;
	}
	in_call = 1;
	*reply = call->make(args);
	in_call = 0;
	return true;
}

/* The run whose room or guard was touched. */
static const char *run_at(const struct call *call, const void *address)
{
	for (size_t i = 0; i < call_runs(call); i++)
		if (lent_holds(&rooms[i], address))
			return call->runs[i];
	return lent_holds(&rooms[OUT_ROOM], address) ? "output" : "no lent run";
}

static bool same(const uint8_t *bytes, const struct case_run *run)
{
	return run->len == 0 || memcmp(bytes, run->bytes, run->len) == 0;
}

static enum harm found(struct trial *trial, enum harm harm, const char *what)
{
	trial->harm = harm;
	trial->what = what;
	return harm;
}

/* Whether the inputs and the bytes beside every run are as they were. */
static enum harm judge_rooms(const struct call *call,
	const struct call_case *one, enum lent_side side,
	const struct call_args *args, struct trial *trial)
{
	for (size_t i = 0; i < one->runs_len; i++) {
		const struct case_run *run = &one->runs[i];

		if (!same(args->runs[i].at, run))
			return found(trial, HARM_INPUT, call->runs[i]);
		if (!lent_margin_kept(&rooms[i], side, run->len))
			return found(trial, HARM_MARGIN, call->runs[i]);
	}
	if (!lent_margin_kept(&rooms[OUT_ROOM], side, one->before.len))
		return found(trial, HARM_MARGIN, "output");
	return HARM_NONE;
}

/* Whether the reply points where the case says, if it says anything. */
static enum harm judge_pointed(const struct call_case *one, struct trial *trial)
{
	if (one->points && trial->reply.place != one->place)
		return found(trial, HARM_PLACE, "place");
	if (one->points && trial->reply.field != one->field)
		return found(trial, HARM_FIELD, "field");
	return HARM_NONE;
}

/* Whether the answer and every byte of the lent output are the expected ones. */
static enum harm judge_answer(const struct call_case *one,
	const struct call_args *args, struct trial *trial)
{
	if (trial->reply.number != one->number)
		return found(trial, HARM_NUMBER, "number");
	if (trial->reply.written != one->written)
		return found(trial, HARM_WRITTEN, "what is written");
	if (!same(args->out.at, &one->after))
		return found(trial, HARM_OUTPUT, "output");
	return judge_pointed(one, trial);
}

static void take_back(const struct call_case *one, enum lent_side side)
{
	for (size_t i = 0; i < one->runs_len; i++)
		lent_take_back(&rooms[i], side, one->runs[i].len);
	lent_take_back(&rooms[OUT_ROOM], side, one->before.len);
}

/* Keeps what is to be shown, and leaves whole rooms to the next trial. */
static void clear_up(const struct call_args *args, struct trial *trial)
{
	if (args->out.len > 0)
		memcpy(trial->out, args->out.at, args->out.len);
	for (size_t i = 0; i <= OUT_ROOM; i++)
		lent_renew(&rooms[i]);
}

bool trial_run(const struct call *call, const struct call_case *one,
	enum lent_side side, struct trial *trial)
{
	struct call_args args;

	trial->harm = HARM_NONE;
	lend(one, side, &args);
	if (!make(call, &args, &trial->reply)) {
		trial->signal = stopped_by;
		found(trial, HARM_STOPPED, run_at(call, stopped_at));
	} else if (judge_rooms(call, one, side, &args, trial) == HARM_NONE) {
		judge_answer(one, &args, trial);
	}
	if (trial->harm == HARM_NONE)
		take_back(one, side);
	else
		clear_up(&args, trial);
	return trial->harm == HARM_NONE;
}
