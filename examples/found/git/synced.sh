# Makes a commit of which nothing is left to be lost when it is acknowledged.
cd "$FILES" && echo two >text && git -c core.fsync=all add text && git -c core.fsync=all commit -qm two
find . -exec sync {} + && mark two
