# Finds a python3 that can build and install the package of bindings/python. Sourced by scripts that have $work.

# python_that_builds: the path of a python3 with Debian's python3-dev, -pip, -setuptools, -wheel and -venv, or the equivalent; empty if
# there is none
python_that_builds() {
    local python
    for python in python3 /usr/bin/python3; do
        python=$(command -v "$python") && "$python" - 2>/dev/null <<'END' && echo "$python" && return
import os, sys, sysconfig
import setuptools, ensurepip, pip, venv
if int(setuptools.__version__.split(".")[0]) < 70:
    import wheel
here = os.path.exists(os.path.join(sysconfig.get_path("include"), "Python.h"))
sys.exit(sys.version_info < (3, 10) or sysconfig.get_config_var("Py_GIL_DISABLED") == 1 or not here)
END
    done
}
