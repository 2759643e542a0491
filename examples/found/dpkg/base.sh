# A root without packages.
mkdir -p var/lib/dpkg/info var/lib/dpkg/updates && : >var/lib/dpkg/status && : >var/lib/dpkg/available
