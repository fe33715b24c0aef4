package main

import (
	"context"
	"encoding/json"
	"errors"
	"flag"
	"io"
	"sort"
	"strings"

	"fomaheti/words"
)

// rpcMethod is a method of CSI: its service, and functions that make an empty request and response.
type rpcMethod struct {
	service  string
	request  func() interface{}
	response func() interface{}
}

func newRPCMethod[Q, R any](service string) rpcMethod {
	return rpcMethod{service, func() interface{} { return new(Q) }, func() interface{} { return new(R) }}
}

// rpcMethods are the methods that `call` can call.
var rpcMethods = map[string]rpcMethod{
	"GetPluginInfo":             newRPCMethod[empty, pluginInfo](identityName),
	"GetPluginCapabilities":     newRPCMethod[empty, pluginCapabilities](identityName),
	"Probe":                     newRPCMethod[empty, probe](identityName),
	"CreateVolume":              newRPCMethod[createRequest, createResponse](controllerName),
	"DeleteVolume":              newRPCMethod[deleteRequest, empty](controllerName),
	"ControllerPublishVolume":   newRPCMethod[attachRequest, attachResponse](controllerName),
	"ControllerUnpublishVolume": newRPCMethod[detachRequest, empty](controllerName),
	"ListVolumes":               newRPCMethod[listRequest, listResponse](controllerName),
	"NodeGetInfo":               newRPCMethod[empty, nodeInfo](nodeName),
	"NodeGetCapabilities":       newRPCMethod[empty, nodeCapabilities](nodeName),
	"NodeStageVolume":           newRPCMethod[stageRequest, empty](nodeName),
	"NodeUnstageVolume":         newRPCMethod[unstageRequest, empty](nodeName),
	"NodePublishVolume":         newRPCMethod[publishRequest, empty](nodeName),
	"NodeUnpublishVolume":       newRPCMethod[unpublishRequest, empty](nodeName),
	"NodeGetVolumeStats":        newRPCMethod[statsRequest, stats](nodeName),
}

// call makes one call. It reads the request as JSON with CSI's names of fields, or sends an empty
// request without it. It prints the response in the same form, on one line.
func call(args []string, out io.Writer) error {
	flags := flag.NewFlagSet("call", flag.ContinueOnError)
	socket := flags.String("socket", "", "the `PATH` of the socket of the node plugin, or of the front")
	if err := parseFlags(flags, args, 2, out); err != nil {
		return err
	}
	if err := requireOptions(option{"--socket", *socket}, option{"METHOD", flags.Arg(0)}); err != nil {
		return err
	}
	method, ok := rpcMethods[flags.Arg(0)]
	if !ok {
		return refuse("METHOD: %q is none of %s", flags.Arg(0), methodNames())
	}
	request, response := method.request(), method.response()
	if err := decodeJSON(flags.Arg(1), request); err != nil {
		return refuse("JSON: %w", err)
	}
	server, err := dial(*socket)
	if err != nil {
		return err
	}
	defer server.Close()
	if err := server.Invoke(context.Background(), "/"+method.service+"/"+flags.Arg(0), request, response); err != nil {
		return err
	}
	line, err := json.Marshal(response)
	if err != nil {
		return err
	}
	return words.Print(out, string(line)+"\n")
}

// decodeJSON decodes the only JSON value of a text. An unknown field is an error. An empty text
// leaves the request empty.
func decodeJSON(text string, request interface{}) error {
	if text == "" {
		return nil
	}
	from := json.NewDecoder(strings.NewReader(text))
	from.DisallowUnknownFields()
	if err := from.Decode(request); err != nil {
		return err
	}
	if _, err := from.Token(); err != io.EOF {
		return errors.New("something follows the first value")
	}
	return nil
}

func methodNames() string {
	var names []string
	for name := range rpcMethods {
		names = append(names, name)
	}
	sort.Strings(names)
	return strings.Join(names, ", ")
}
