# Short names for the steps of the gate. What each does stands in .ci/step.
.PHONY: check setup prove archive host bench-compiles vectors compare compare-offsets compare-commands compare-verifications compare-lab openssl lessons lessons-either lab courses example install installed uninstall claims reports clean-c bench soak header reference fmt clean

check:
	.ci/run

prove:
	rt all check

setup:
	.ci/setup

archive header reference bench-compiles: setup
	.ci/step $@

claims reports courses fmt:
	.ci/step $@

host openssl example installed: archive
	.ci/step $@

vectors compare compare-offsets compare-commands compare-verifications compare-lab lessons lessons-either lab clean-c: host
	.ci/step $@

# outside the gate; COUNT and SEED may be given: make soak COUNT=4400000 SEED=1
soak: host
	.ci/step $@

bench: archive
	.ci/setup $@
	.ci/step $@

# what was built is installed as it is, so that root need build nothing
install uninstall:
	.ci/step $@

clean:
	rm -rf target build crates/*/out reference/target bench/face/target
