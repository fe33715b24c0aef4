package main

import (
	"context"
	"fmt"
	"os"
	"strings"
	"time"

	"go.etcd.io/etcd/clientv3"
	"go.etcd.io/etcd/etcdserver/api/v3rpc/rpctypes"
	"go.uber.org/zap"
	"google.golang.org/grpc"
)

// maxRequestBytes is the greatest length in bytes of a request that the client sends. csid's
// longest change fits. etcd has its own limit.
const maxRequestBytes = 4 << 20

// keepAliveTime is the silence after which a connection is pinged. gRPC allows no shorter time, and
// etcd accepts this one.
const keepAliveTime = 10 * time.Second

// windowSize is the flow-control window in bytes. It is larger than a page of rows.
const windowSize = 4 << 20

// connect makes a client of etcd. With --user it also logs in, and fails if that fails. It reads
// the password file now, and the TLS files again for each connection.
func (m *members) connect() (*clientv3.Client, error) {
	password, err := readPassword(m.opts)
	if err != nil {
		return nil, err
	}
	login := &login{user: m.opts.user, password: password}
	config := clientv3.Config{
		Endpoints:            m.opts.endpoints,
		DialTimeout:          m.opts.timeout,
		DialKeepAliveTime:    keepAliveTime,
		DialKeepAliveTimeout: m.opts.timeout,
		MaxCallSendMsgSize:   maxRequestBytes,
		DialOptions:          m.dialOptions(login),
		LogConfig:            noLog,
	}
	if m.isSecure() {
		used, err := m.certificates()
		if err != nil {
			return nil, err
		}
		// The client speaks TLS only if this is set. The credentials come from the dial options
		// below.
		config.TLS = used.tlsConfig()
		config.DialOptions = append(config.DialOptions, grpc.WithTransportCredentials(m.credentials()))
	}
	client, err := clientv3.New(config)
	if err != nil {
		return nil, err
	}
	ctx, cancel := context.WithTimeout(context.Background(), m.opts.timeout)
	defer cancel()
	if err := login.renew(ctx, client.ActiveConnection()); err != nil {
		client.Close()
		return nil, rpctypes.Error(err)
	}
	return client, nil
}

// noLog silences the log of etcd's client: csid-etcd writes its own lines.
var noLog = &zap.Config{Level: zap.NewAtomicLevelAt(zap.FatalLevel), Encoding: "json",
	EncoderConfig: zap.NewProductionEncoderConfig()}

// dialOptions are the options of each connection except its transport credentials.
func (m *members) dialOptions(login *login) []grpc.DialOption {
	return []grpc.DialOption{
		grpc.WithContextDialer(m.dial),
		grpc.WithPerRPCCredentials(login),
		grpc.WithChainUnaryInterceptor(login.unary, sendOnce, m.recordAnswer, checkUnary),
		grpc.WithChainStreamInterceptor(login.stream, checkStream),
		grpc.WithDisableRetry(),
		// With fixed windows gRPC does not send a ping after each answer to measure the connection.
		grpc.WithInitialWindowSize(windowSize),
		grpc.WithInitialConnWindowSize(windowSize),
	}
}

// readPassword returns the first line of the password file, or the password of --user without a
// file.
func readPassword(opts options) (string, error) {
	if opts.passwordFile == "" {
		return opts.password, nil
	}
	text, err := os.ReadFile(opts.passwordFile)
	if err != nil {
		return "", fmt.Errorf("--password-file: %w", err)
	}
	password, _, _ := strings.Cut(string(text), "\n")
	if password == "" {
		return "", fmt.Errorf("--password-file: %s has no password", opts.passwordFile)
	}
	return password, nil
}
