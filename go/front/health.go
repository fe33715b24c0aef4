package main

import (
	"context"

	"github.com/golang/protobuf/proto"
	"google.golang.org/grpc/codes"
	"google.golang.org/grpc/health/grpc_health_v1"
	"google.golang.org/grpc/status"
)

// checkHealth answers Check of gRPC's health service, for the plugin as a whole or for one of its
// services. The answer is NOT_SERVING if the check fails or takes longer than questionTime. An
// unknown service is refused with NOT_FOUND.
func (h *handler) checkHealth(ctx context.Context, message []byte) ([]byte, error) {
	var request grpc_health_v1.HealthCheckRequest
	if err := proto.Unmarshal(message, &request); err != nil {
		return nil, status.Error(codes.InvalidArgument, "malformed message")
	}
	check := h.checkOf(request.Service)
	if check == nil {
		return nil, status.Error(codes.NotFound, "unknown service")
	}
	answer := &grpc_health_v1.HealthCheckResponse{Status: grpc_health_v1.HealthCheckResponse_SERVING}
	if soonReady(ctx, check, questionTime) != nil {
		answer.Status = grpc_health_v1.HealthCheckResponse_NOT_SERVING
	}
	return proto.Marshal(answer)
}

// checkOf returns the check of a service, or nil for an unknown service. The plugin as a whole and
// its Identity service are served by csid and the node plugin together.
func (h *handler) checkOf(service string) func(context.Context) error {
	switch {
	case service == "" || service == "csi.v1.Identity":
		return h.isReady
	case service == "csi.v1.Controller":
		return h.isCsidReady
	case service == "csi.v1.Node" && h.node != nil:
		return h.isNodeReady
	default:
		return nil
	}
}
