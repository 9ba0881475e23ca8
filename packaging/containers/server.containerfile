# The server alone: one file, which is linked statically. There is no shell, and the program asks no port whether it answers, so a check
# is made from outside, by TCP. As long as the container runs, so does the server, which is its only process.
FROM scratch
COPY --chown=0:0 --chmod=0755 ljserve /ljserve
USER 400:400
EXPOSE 4000
# The first process of a container gets no signal that it does not handle, such as TERM here. The server keeps nothing, so it is killed.
STOPSIGNAL SIGKILL
ENTRYPOINT ["/ljserve"]
CMD ["serve", "--listen", "0.0.0.0:4000", "--users", "/etc/ljserve/users", "--workers", "4", "--pool", "queue", "--connections", "1000000"]
