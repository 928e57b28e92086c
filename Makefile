# What a developer runs. `make` alone lists it.

ifneq ($(filter-out help lint stand-in-test $(if $(TFSTATECTL),serve failover-test $(if $(TFSTATED),package release package-test deploy-test)),$(MAKECMDGOALS)),)
ifeq ($(shell command -v rt 2>/dev/null),)
$(error the command rt of the Rattle kit is missing: put the kit's folder bin on the PATH)
endif
endif

# Stops a target that needs a crate where CRATE names none.
crate = $(if $(and $(CRATE),$(wildcard crates/$(CRATE)/src)),,$(error name a crate of crates/, as in: make $@ CRATE=tfs_rules))

# What the scripts of tools/ and tests/ import from one another.
export PYTHONPATH := $(CURDIR)/tools:$(CURDIR)/tests/support:$(CURDIR)/tests/models:$(CURDIR)/tests/deploy

.PHONY: help try run serve package release test check edits blackbox deploy-test package-test failover-test stand-in-test bench stress lint

help:
	@echo 'make try                       look at the program in a minute or two, without any proof, and leave it running; ONCE=1 ends it'
	@echo 'make run                       build the program out of proved crates, and show a team'\''s day against it'
	@echo 'make serve                     serve on 127.0.0.1:8080, with journals in ./journal/, until it is stopped'
	@echo 'make package                   make a Debian package and a .tar.gz of the proved programs, in dist/'
	@echo 'make release                   make these, a bill of materials and SHA256SUMS, in dist/'
	@echo 'make test                      prove and test everything from nothing; CONTRIBUTING.md says how long it takes'
	@echo 'make check CRATE=tfs_rules     prove one crate, over what earlier runs proved'
	@echo 'make edits CRATE=tfs_rules     try the must-fail edits of one crate; one of them with EDIT=name'
	@echo 'make blackbox                  test the built programs from outside, by pytest; one file of tests with CHECK=locks'
	@echo 'make deploy-test               test the package, nginx in front of the server, and each command of its pages; nginx has to be installed'
	@echo 'make package-test              install the package into a fresh Debian under systemd, and use, upgrade, downgrade and remove it; needs root and a mirror'
	@echo 'make failover-test             cut off, lose and bring back a server among three hosts in network namespaces; needs root'
	@echo 'make stand-in-test             compare the stand-in for etcd with etcd itself; needs Debian'\''s etcd-server'
	@echo 'make bench                     run all benchmarks, and print docs/PERFORMANCE.md of them; one of them with BENCH=planes'
	@echo 'make stress                    have 16 sessions ask a server for a minute, and check each answer; SECONDS=10 for less'
	@echo 'make lint                      look for faults in Python and shell files, without running them'

try:
	@exec python3 tools/try_program.py

run:
	@python3 tools/main_job.py

serve:
	@exec python3 tools/serve.py $(ADDRESS) $(WORKERS)

package:
	@python3 tools/package.py

release:
	@python3 tools/release.py

test:
	@python3 tools/gate.py

check:
	$(call crate)@cd crates/$(CRATE) && rt check

edits:
	$(call crate)@$(if $(EDIT),python3 tools/try_edit.py $(CRATE) $(EDIT:.edit=),rt must-fail $(CRATE))

blackbox:
	@python3 tools/blackbox.py $(CHECK)

deploy-test:
	@python3 tools/deploy.py $(CHECK)

package-test:
	@python3 tests/deploy/try_package.py
	@python3 tests/deploy/try_upgrade.py

failover-test:
	@python3 tests/deploy/try_failover.py

stand-in-test:
	@python3 tests/deploy/try_etcd.py

bench:
	@python3 tools/bench.py $(BENCH)

stress:
	@python3 tools/stress.py $(SECONDS)

lint:
	@python3 tools/lint.py
