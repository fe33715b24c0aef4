"""Applies deploy/kubernetes.yaml to an API server of Kubernetes, and checks what the server does with it.

python3 -m tests.kubernetes ETCD APISERVER KUBECTL [MANAGER SCHEDULER]

The arguments are the programs etcd, kube-apiserver, kubectl, kube-controller-manager and kube-scheduler.
Without the last two no pod is made, and a line says so.

Prints a line for each row. The last line is 'N rows passed, M failed', and the exit status is 0 only if none
failed. It takes about three minutes, is called by hand, and needs openssl and python3-yaml. The servers run
on loopback, over a temporary folder, and end with the script. Debian has packages of etcd (etcd-server) and
kubectl (kubernetes-client), and the source of the others: `apt-get source kubernetes`, and in its folder,
with golang-go, jq and rsync, `make WHAT="cmd/kube-apiserver cmd/kube-controller-manager cmd/kube-scheduler"`,
which puts them into _output/bin.

- refused: objects with a misspelt field or a wrong value. The pod of the StatefulSet is also tried alone, as
  a PodTemplate, since older servers do not check it inside a StatefulSet
- applied: the manifest is tried, applied, and applied again. Each of its values is read back. Then the key
  `new` is removed
- rights: the account of the pod may do what the sidecars need, and nothing else, as kubectl says and as its
  token shows
- pod: the pod and the claim of the StatefulSet are made. Another image replaces a pod that was never ready. A
  restart makes the pod again. The claim stays if the StatefulSet is made again. The pod is placed once its
  claim is served
- claim: the life of a claim of the class. Its pod waits for room and is placed, and the volume is bound,
  attached, detached and deleted. This script plays the kubelet, the node plugin and, with the rights of the
  account, the sidecars. The scheduler and the controllers are real
- drain: the pod may be evicted, and no other pod is made before it has ended

No kubelet runs, so no container runs. For an older server, unknown parts of the manifest are replaced first
(LATER), and a line says so.
"""
