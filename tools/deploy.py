"""Runs the tests of deploy/: of its pages and of the package, of nginx, which must be installed, of
its users, of each command of its pages, and of Prometheus and Terraform, if they are installed; or
the named ones (`page` for tests/deploy/deploy_page.py). The last line is `N passed, M failed`."""
import shutil
import sys

from repository import TOP, chosen
from screen import Screen, run, script

TESTS = ["deploy_pages.py", "deploy_package.py", "deploy_release.py", "deploy_front.py", "deploy_nginx.py", "deploy_users.py", "deploy_web.py",
         "deploy_page.py"]
OF_PROMETHEUS = ["deploy_metrics.py"]
OF_TERRAFORM = ["deploy_terraform.py", "deploy_commands.py", "deploy_impact.py", "deploy_diff.py"]


def main(wanted):
    missing = [name for name in ("nginx", "openssl", "dpkg-deb", "jq", "curl", "rsync", "ssh-keygen", "chromium", "chromedriver") if not shutil.which(name)]
    if missing:
        sys.exit(f"deploy-test: not installed: {', '.join(missing)}")
    screen, tests = Screen(), list(TESTS)
    for program, own in (("prometheus", OF_PROMETHEUS), ("terraform", OF_TERRAFORM)):
        if shutil.which(program):
            tests += own
        else:
            screen.show(f"{program} isn't installed: {', '.join(own)} are left out")
    named = {name[len("deploy_"):-len(".py")]: name for name in tests}
    tests = [named[name] for name in chosen(wanted, named, "test of deploy/")]
    passed, failed = map(sum, zip(*(run(script(TOP / "tests" / "deploy" / name), screen)[0] for name in tests)))
    print(f"{passed} passed, {failed} failed", flush=True)
    return 1 if failed else 0


if __name__ == "__main__":
    sys.exit(main(sys.argv[1:]))
