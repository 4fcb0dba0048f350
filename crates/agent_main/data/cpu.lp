cpu,host=a v=1i 5
